//! PCM packets of the AVTP audio format, and the header that they have in common with IEC 61883 and CVF packets.

use crate::pcap::{Refusal, cut_off, u16_at};

/// The bytes of the stream header.
pub const HEADER: usize = 24;

/// The sample rates by `nsr`; 0 is user-specified.
pub const RATES: [u32; 11] = [
    0, 8000, 16000, 32000, 44100, 48000, 88200, 96000, 176400, 192000, 24000,
];

/// Refuses a stream header that is cut off or has a version other than 0.
#[inline(always)]
pub fn check_header(pdu: &[u8]) -> Result<(), Refusal> {
    if pdu.len() < HEADER {
        const FIELDS: [(usize, &str); 9] = [
            (1, "subtype"),
            (2, "version"),
            (3, "sequence_num"),
            (4, "tu"),
            (12, "stream_id"),
            (16, "avtp_timestamp"),
            (20, "format_data"),
            (22, "stream_data_length"),
            (24, "format_flags"),
        ];
        return Err(cut_off(&FIELDS, pdu.len(), 0).unwrap());
    }
    if pdu[1] & 0x70 != 0 {
        return Err(Refusal("version", 1, false));
    }
    Ok(())
}

/// The name of the sample format, the bytes of a sample of all channels, and the rate, or the refusal of an AAF packet.
#[inline(always)]
pub fn read_aaf(pdu: &[u8]) -> Result<(&'static str, u32, u32), Refusal> {
    check_header(pdu)?;
    let refuse = |field, at| Err(Refusal(field, at, false));
    let (format, width) = match pdu[16] {
        1 => ("float32", 4),
        2 => ("int32", 4),
        3 => ("int24", 3),
        4 => ("int16", 2),
        _ => return refuse("format", 16),
    };
    let Some(&rate) = RATES.get(usize::from(pdu[17] >> 4)) else {
        return refuse("nsr", 17);
    };
    let channels = u32::from(u16_at(pdu, 17) & 0x3ff);
    if channels == 0 {
        return refuse("channels_per_frame", 17);
    }
    if u32::from(pdu[19]) > 8 * width {
        return refuse("bit_depth", 19);
    }
    let stated = u16_at(pdu, 20);
    if usize::from(stated) > pdu.len() - HEADER || u32::from(stated) % (channels * width) != 0 {
        return refuse("stream_data_length", 20);
    }
    Ok((format, channels * width, rate))
}
