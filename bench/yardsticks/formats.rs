//! The packets of the formats other than AAF: IEC 61883-6, H.264 in CVF, and CRF.

use crate::aaf::{HEADER, check_header};
use crate::pcap::{Refusal, cut_off, u16_at};

#[inline(always)]
pub fn u32_at(bytes: &[u8], at: usize) -> u32 {
    u32::from_be_bytes(bytes[at..at + 4].try_into().unwrap())
}

/// The quadlets of a data block and the number of blocks, or the refusal of an IEC 61883-6 packet.
pub fn read_iec(pdu: &[u8]) -> Result<(u32, u32), Refusal> {
    check_header(pdu)?;
    let refuse = |field, at| Err(Refusal(field, at, false));
    if pdu[22] >> 6 != 1 {
        return refuse("tag", 22);
    }
    let stated = u16_at(pdu, 20);
    if stated < 8 || usize::from(stated) > pdu.len() - HEADER {
        return refuse("stream_data_length", 20);
    }
    const FIXED: [(usize, u8, u8, &str); 6] = [
        (24, 0xc0, 0, "qi_1"),
        (26, 0xc0, 0, "fn"),
        (26, 0x38, 0, "qpc"),
        (26, 0x04, 0, "sph"),
        (28, 0xc0, 0x80, "qi_2"),
        (28, 0x3f, 0x10, "fmt"),
    ];
    for (at, mask, bits, field) in FIXED {
        if pdu[at] & mask != bits {
            return refuse(field, at);
        }
    }
    let quadlets = if pdu[25] == 0 { 256 } else { pdu[25].into() };
    let bytes = u32::from(stated) - 8;
    match pdu[29] {
        255 => Ok((quadlets, 0)),
        7.. => refuse("fdf", 29),
        _ if bytes % (4 * quadlets) != 0 => refuse("stream_data_length", 20),
        _ => Ok((quadlets, bytes / (4 * quadlets))),
    }
}

/// What a packet carries of a NAL unit.
#[derive(Clone, Copy)]
pub enum Part {
    Single,
    First,
    Middle,
    Last,
}

impl Part {
    #[allow(dead_code)] // Printed by `show` alone.
    pub fn name(self) -> &'static str {
        match self {
            Part::Single => "single",
            Part::First => "first",
            Part::Middle => "middle",
            Part::Last => "last",
        }
    }
}

/// The type of the NAL unit and the part of it, or the refusal of an H.264 packet.
pub fn read_h264(pdu: &[u8]) -> Result<(u8, Part), Refusal> {
    check_header(pdu)?;
    let refuse = |field, at| Err(Refusal(field, at, false));
    if pdu[16] != 2 {
        return refuse("cvf_format", 16);
    }
    if pdu[17] != 1 {
        return refuse("format_subtype", 17);
    }
    let stated = u16_at(pdu, 20);
    if stated < 5 || usize::from(stated) > pdu.len() - HEADER {
        return refuse("stream_data_length", 20);
    }
    let nal = pdu[28] & 31;
    match nal {
        1..=23 => return Ok((nal, Part::Single)),
        28 => {}
        _ => return refuse("nal_type", 28),
    }
    if stated == 5 {
        return Err(Refusal("fu_header", 29, true));
    }
    match (pdu[29] >> 6, pdu[29] & 31) {
        (3, _) | (_, 0 | 24..) => refuse("fu_header", 29),
        (2, nal) => Ok((nal, Part::First)),
        (1, nal) => Ok((nal, Part::Last)),
        (_, nal) => Ok((nal, Part::Middle)),
    }
}

/// The refusal of a CRF packet, if it has one.
pub fn check_crf(pdu: &[u8]) -> Result<(), Refusal> {
    const FIELDS: [(usize, &str); 8] = [
        (1, "subtype"),
        (2, "version"),
        (3, "sequence_num"),
        (4, "crf_type"),
        (12, "stream_id"),
        (16, "base_frequency"),
        (18, "crf_data_length"),
        (20, "timestamp_interval"),
    ];
    if let Some(refusal) = cut_off(&FIELDS, pdu.len(), 0) {
        return Err(refusal);
    }
    let refuse = |field, at| Err(Refusal(field, at, false));
    let stated = usize::from(u16_at(pdu, 16));
    if pdu[1] & 0x70 != 0 {
        return refuse("version", 1);
    }
    if pdu[12] >> 5 > 5 {
        return refuse("pull", 12);
    }
    if u32_at(pdu, 12) & 0x1fff_ffff == 0 {
        return refuse("base_frequency", 12);
    }
    if stated == 0 || stated % 8 != 0 || stated > pdu.len() - 20 {
        return refuse("crf_data_length", 16);
    }
    if u16_at(pdu, 18) == 0 {
        return refuse("timestamp_interval", 18);
    }
    Ok(())
}
