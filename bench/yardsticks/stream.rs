//! Which frames have packets of a stream, and what is read of these.

use crate::aaf::{check_header, read_aaf};
use crate::pcap::{Refusal, read_frame};

/// The packet in a frame, if it belongs to the stream.
#[inline(always)]
pub fn packet_of_stream(frame: &[u8], stream: [u8; 8]) -> Option<&[u8]> {
    let (0x22f0, start) = read_frame(frame).ok()? else {
        return None;
    };
    let pdu = &frame[start..];
    let is_wanted = pdu.len() >= 12 && matches!(pdu[0], 0 | 2 | 3) && pdu[1] & 0x80 != 0 && pdu[4..12] == stream;
    is_wanted.then_some(pdu)
}

/// The name of the sample format, the bytes of a sample of all channels, and the rate, or the refusal of a packet. The measured
/// captures have only AAF packets, some of whose subtypes are damaged.
#[inline(always)]
pub fn read_packet(pdu: &[u8]) -> Result<(&'static str, u32, u32), Refusal> {
    match pdu[0] {
        2 => read_aaf(pdu),
        subtype => Err(refusal_of_another(subtype, pdu)),
    }
}

/// Why an AAF packet with a damaged subtype is refused: its tag is not that of IEC 61883, or its format is not that of H.264.
#[cold]
fn refusal_of_another(subtype: u8, pdu: &[u8]) -> Refusal {
    let (field, at) = if subtype == 0 {
        ("tag", 22)
    } else {
        ("cvf_format", 16)
    };
    check_header(pdu).err().unwrap_or(Refusal(field, at, false))
}
