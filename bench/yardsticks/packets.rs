//! AAF packets, and the captures that are made of them: 16-bit stereo at 48 kHz, six sample frames each. Packet n arrives at
//! 1 s + n * 125 us, has the sequence number n mod 256, and is due 2 ms after its arrival.

use std::io::{self, Write};

/// The Ethernet frame with its VLAN tag, the header of the AAF packet, and its samples.
const FRAME: [u8; 66] = [
    0x91, 0xe0, 0xf0, 0x00, 0xfe, 0x00, 0x02, 0, 0, 0, 0, 1, 0x81, 0x00, 0x60, 0x02, 0x22, 0xf0, //
    0x02, 0x81, 0, 0, 0x02, 0, 0, 0, 0, 1, 0, 1, 0, 0, 0, 0, 0x04, 0x50, 0x02, 0x10, 0, 24, 0, 0, //
    0, 1, 0xff, 0xff, 0, 2, 0xff, 0xfe, 0, 3, 0xff, 0xfd, 0, 4, 0xff, 0xfc, 0, 5, 0xff, 0xfb, 0, 6, 0xff,
    0xfa,
];

/// Where the sequence number, the end of the stream id and the timestamp are in the frame.
pub const SEQUENCE_NUM: usize = 20;
const STREAM_ID_END: usize = 30;
pub const TIMESTAMP: usize = 30;

/// The most bytes that a record may have.
pub const LONGEST: usize = 262_144;

pub struct Capture<W: Write> {
    pub out: W,
    pub big_endian: bool,
    /// In nanoseconds.
    pub unit: u64,
}

impl<W: Write> Capture<W> {
    pub fn numbers(&mut self, numbers: &[u32]) -> io::Result<()> {
        for number in numbers {
            let bytes = if self.big_endian {
                number.to_be_bytes()
            } else {
                number.to_le_bytes()
            };
            self.out.write_all(&bytes)?;
        }
        Ok(())
    }

    pub fn header(&mut self) -> io::Result<()> {
        let magic = if self.unit == 1 { 0xa1b2_3c4d } else { 0xa1b2_c3d4 };
        let version = if self.big_endian { 2 << 16 | 4 } else { 4 << 16 | 2 };
        self.numbers(&[magic, version, 0, 0, LONGEST as u32, 1])
    }

    pub fn record(&mut self, n: u64, frame: &[u8]) -> io::Result<()> {
        self.record_at(1_000_000_000 + n * 125_000, frame)
    }

    /// A record that arrives at this time, in nanoseconds.
    pub fn record_at(&mut self, arrival: u64, frame: &[u8]) -> io::Result<()> {
        let fraction = arrival % 1_000_000_000 / self.unit;
        let len = frame.len() as u32;
        self.numbers(&[(arrival / 1_000_000_000) as u32, fraction as u32, len, len])?;
        self.out.write_all(frame)
    }
}

pub fn packet(n: u64) -> [u8; 66] {
    let mut frame = FRAME;
    let due = 1_002_000_000 + n * 125_000;
    frame[SEQUENCE_NUM] = n as u8;
    frame[TIMESTAMP..TIMESTAMP + 4].copy_from_slice(&(due as u32).to_be_bytes());
    frame
}

/// Packet n, counted over streams that take turns.
pub fn packet_of(n: u64, streams: u64) -> [u8; 66] {
    let mut frame = packet(n);
    frame[SEQUENCE_NUM] = (n / streams) as u8;
    frame[STREAM_ID_END - 2..STREAM_ID_END].copy_from_slice(&((n % streams) as u16).to_be_bytes());
    frame
}
