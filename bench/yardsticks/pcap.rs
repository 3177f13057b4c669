//! The records of a classic capture, in the buffer that they were read into, and the Ethernet frames in them. Each yardstick uses
//! a part.
#![allow(dead_code)]

use std::io::{self, Read};

const FILE_HEADER: usize = 24;
const RECORD_HEADER: usize = 16;
const RECORD_LIMIT: usize = 262_144;
const PIECE: usize = 65_536;

/// A field that is refused, its offset, and whether it is cut off.
pub struct Refusal(pub &'static str, pub usize, pub bool);

/// The field that holds the first byte after `len` bytes, given where each field ends.
pub fn cut_off(fields: &[(usize, &'static str)], len: usize, start: usize) -> Option<Refusal> {
    let mut at = 0;
    for &(end, field) in fields {
        if len < end {
            return Some(Refusal(field, start + at, true));
        }
        at = end;
    }
    None
}

pub fn u16_at(bytes: &[u8], at: usize) -> u16 {
    u16::from_be_bytes([bytes[at], bytes[at + 1]])
}

/// The EtherType of a frame, and where its payload starts.
#[inline(always)]
pub fn read_frame(frame: &[u8]) -> Result<(u16, usize), Refusal> {
    const FIELDS: [(usize, &str); 5] = [
        (6, "destination"),
        (12, "source"),
        (14, "ethertype"),
        (16, "tag_control"),
        (18, "ethertype"),
    ];
    let tagged = frame.len() >= 14 && u16_at(frame, 12) == 0x8100;
    let start = if tagged { 18 } else { 14 };
    if frame.len() < start {
        return Err(cut_off(&FIELDS, frame.len(), 0).unwrap());
    }
    Ok((u16_at(frame, start - 2), start))
}

/// The byte order and the unit of a capture's numbers.
#[derive(Clone, Copy)]
struct Style {
    big: bool,
    unit: u64,
}

impl Style {
    #[inline(always)]
    fn u32_at(self, bytes: &[u8], at: usize) -> u32 {
        let four = bytes[at..at + 4].try_into().unwrap();
        if self.big {
            u32::from_be_bytes(four)
        } else {
            u32::from_le_bytes(four)
        }
    }
}

fn read_style(header: &[u8]) -> Result<Style, Refusal> {
    let refuse = |field, at| Err(Refusal(field, at, false));
    if header.len() < 4 {
        return Err(Refusal("magic", 0, true));
    }
    let style = match header[..4] {
        [0xd4, 0xc3, 0xb2, 0xa1] => Style {
            big: false,
            unit: 1000,
        },
        [0x4d, 0x3c, 0xb2, 0xa1] => Style { big: false, unit: 1 },
        [0xa1, 0xb2, 0xc3, 0xd4] => Style {
            big: true,
            unit: 1000,
        },
        [0xa1, 0xb2, 0x3c, 0x4d] => Style { big: true, unit: 1 },
        _ => return refuse("magic", 0),
    };
    if header.len() >= 6 && header[4..6] != if style.big { [0, 2] } else { [2, 0] } {
        return refuse("version_major", 4);
    }
    const FIELDS: [(usize, &str); 7] = [
        (4, "magic"),
        (6, "version_major"),
        (8, "version_minor"),
        (12, "thiszone"),
        (16, "sigfigs"),
        (20, "snaplen"),
        (24, "network"),
    ];
    if let Some(refusal) = cut_off(&FIELDS, header.len(), 0) {
        return Err(refusal);
    }
    if style.u32_at(header, 20) & 0xffff != 1 {
        return refuse("network", 20);
    }
    Ok(style)
}

/// The length of the record's frame, if the record is complete in the bytes.
#[inline(always)]
fn whole_record(style: Style, bytes: &[u8], start: usize) -> Result<usize, Refusal> {
    if bytes.len() >= 12 {
        let len = style.u32_at(bytes, 8) as usize;
        if len > RECORD_LIMIT {
            return Err(Refusal("incl_len", start + 8, false));
        }
        if bytes.len() >= RECORD_HEADER + len {
            return Ok(len);
        }
    }
    const FIELDS: [(usize, &str); 5] = [
        (4, "ts_sec"),
        (8, "ts_fraction"),
        (12, "incl_len"),
        (16, "orig_len"),
        (usize::MAX, "packet_bytes"),
    ];
    Err(cut_off(&FIELDS, bytes.len(), start).unwrap())
}

/// The arrival of a record in nanoseconds.
#[inline(always)]
fn arrival(style: Style, record: &[u8]) -> u64 {
    let seconds = u64::from(style.u32_at(record, 0));
    let fraction = u64::from(style.u32_at(record, 4));
    seconds * 1_000_000_000 + fraction * style.unit
}

/// What was read of a source and is not used yet, in a buffer that has room for a record and a piece.
struct Input<R: Read> {
    source: R,
    buffer: Vec<u8>,
    used: usize,
    len: usize,
}

impl<R: Read> Input<R> {
    fn new(source: R) -> Self {
        Input {
            source,
            buffer: vec![0; RECORD_HEADER + RECORD_LIMIT + PIECE],
            used: 0,
            len: 0,
        }
    }

    fn unused(&self) -> &[u8] {
        &self.buffer[self.used..self.len]
    }

    /// Reads a piece after the unused bytes. Returns whether one came.
    fn read(&mut self) -> io::Result<bool> {
        self.buffer.copy_within(self.used..self.len, 0);
        self.len -= self.used;
        self.used = 0;
        let moved = self.source.read(&mut self.buffer[self.len..self.len + PIECE])?;
        self.len += moved;
        Ok(moved > 0)
    }

    /// Reads the header of the capture.
    #[cold]
    fn read_header(&mut self) -> io::Result<Result<Style, Refusal>> {
        while self.len < FILE_HEADER && self.read()? {}
        let header = self.unused();
        let style = read_style(&header[..header.len().min(FILE_HEADER)]);
        self.used = self.len.min(FILE_HEADER);
        Ok(style)
    }
}

/// The records of a capture, one after the other.
pub struct Records<R: Read> {
    input: Input<R>,
    style: Style,
    /// The offset in the capture at which the unused bytes begin.
    start: usize,
    frames: u64,
    arrival: u64,
    frame_len: usize,
}

impl<R: Read> Records<R> {
    pub fn of(source: R) -> Self {
        Records {
            input: Input::new(source),
            style: Style { big: false, unit: 1 },
            start: 0,
            frames: 0,
            arrival: 0,
            frame_len: 0,
        }
    }

    /// Moves on to the next record. Returns whether there is one, or the capture's first refusal.
    #[inline(always)]
    pub fn advance(&mut self) -> io::Result<Result<bool, Refusal>> {
        if self.start == 0 {
            match self.input.read_header()? {
                Ok(style) => self.style = style,
                Err(refusal) => return Ok(Err(refusal)),
            }
            self.start = FILE_HEADER;
        }
        loop {
            let bytes = self.input.unused();
            match whole_record(self.style, bytes, self.start) {
                Ok(len) => {
                    self.frames += 1;
                    self.arrival = arrival(self.style, bytes);
                    self.frame_len = len;
                    self.start += RECORD_HEADER + len;
                    self.input.used += RECORD_HEADER + len;
                    return Ok(Ok(true));
                }
                Err(refusal) if !refusal.2 => return Ok(Err(refusal)),
                Err(refusal) => {
                    if !self.input.read()? {
                        return Ok(if self.input.len == 0 { Ok(false) } else { Err(refusal) });
                    }
                }
            }
        }
    }

    /// The number of the record, from 1.
    #[inline(always)]
    pub fn number(&self) -> u64 {
        self.frames
    }

    /// The arrival of the record in nanoseconds.
    #[inline(always)]
    pub fn arrival(&self) -> u64 {
        self.arrival
    }

    /// The frame of the record.
    #[inline(always)]
    pub fn frame(&self) -> &[u8] {
        &self.input.buffer[self.input.used - self.frame_len..self.input.used]
    }
}

/// Gives each whole record of the capture to `take`: its number, from 1, its arrival in nanoseconds, and its frame. Returns the
/// number of records, or the capture's first refusal. Unlike `Records` it keeps nothing of a record, so all of it stays in
/// registers until a piece is used up.
#[inline(always)]
pub fn read_records(
    source: impl Read,
    mut take: impl FnMut(u64, u64, &[u8]) -> io::Result<()>,
) -> io::Result<Result<u64, Refusal>> {
    let mut input = Input::new(source);
    let style = match input.read_header()? {
        Ok(style) => style,
        Err(refusal) => return Ok(Err(refusal)),
    };
    let mut start = FILE_HEADER;
    let mut number = 0;
    loop {
        let unused = input.unused();
        let mut bytes = unused;
        let Refusal(field, at, short) = loop {
            match whole_record(style, bytes, 0) {
                Ok(len) => {
                    number += 1;
                    let frame = &bytes[RECORD_HEADER..RECORD_HEADER + len];
                    take(number, arrival(style, bytes), frame)?;
                    bytes = &bytes[RECORD_HEADER + len..];
                }
                Err(refusal) => break refusal,
            }
        };
        let used = unused.len() - bytes.len();
        input.used += used;
        start += used;
        let refusal = Refusal(field, start + at, short);
        if !short {
            return Ok(Err(refusal));
        }
        if !input.read()? {
            return Ok(if input.len == 0 { Ok(number) } else { Err(refusal) });
        }
    }
}
