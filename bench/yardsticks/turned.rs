//! Converts batches to packets of the other format, for the yardstick of `gateway`.

use crate::waiting::{Audio, Batch, FDF_RATES, interval_of, offset};
use std::fmt::Write as _;
use std::fs::File;
use std::io::{self, Write};

/// The bytes that wait for the file.
const ROOM: usize = 65_536;

const SECOND: u64 = 1_000_000_000;
const TRANSIT: i64 = 2_000_000;

/// The addresses, the tag and the EtherType of each frame.
const ETHERNET: [u8; 18] = [
    0x91, 0xe0, 0xf0, 0x00, 0xfe, 0x00, 0x02, 0, 0, 0, 0, 1, 0x81, 0x00, 0x60, 0x02, 0x22, 0xf0,
];

#[derive(Clone, Copy, PartialEq)]
pub enum To {
    Am824,
    Aaf,
}

#[derive(Clone, Copy)]
pub struct Shape {
    rate: u32,
    channels: u32,
}

fn are_linear(quadlets: &[u8]) -> bool {
    quadlets.iter().step_by(4).all(|label| *label == 0x40)
}

/// Why a packet of the stream cannot be converted, if it cannot.
pub fn fault_of(to: To, shape: &mut Option<Shape>, pdu: &[u8]) -> Option<&'static str> {
    if pdu[0] == 3 {
        return Some("kind");
    }
    let audio = Audio::read(pdu)?;
    let own = Shape {
        rate: audio.rate,
        channels: audio.channels,
    };
    let first = shape.unwrap_or(own);
    if audio.is_aaf != (to == To::Am824) {
        return Some("kind");
    }
    if !audio.is_whole {
        return Some("format");
    }
    if !FDF_RATES.contains(&audio.rate) || audio.rate != first.rate {
        return Some("rate");
    }
    if audio.channels > 256 || audio.channels != first.channels {
        return Some("channels");
    }
    if !audio.is_aaf && !are_linear(&pdu[audio.start..audio.start + audio.len]) {
        return Some("label");
    }
    *shape = Some(first);
    None
}

/// A piece: its first sample, their number, and the instant of the first.
#[derive(Clone, Copy)]
struct Piece {
    first: u32,
    count: u32,
    instant: i64,
}

pub struct Gateway {
    out: File,
    to: To,
    shape: Option<Shape>,
    /// The headers of a record, a frame and a packet, in which a packet's own numbers are put.
    headers: Vec<u8>,
    most: u32,
    block: u8,
    last: i64,
    batches: u64,
    packets: u64,
    skipped: u64,
    pieces: Vec<Piece>,
    waiting: Vec<u8>,
}

fn headers_of(to: To, shape: Shape, id: u64) -> Vec<u8> {
    let [high, low] = (shape.channels as u16).to_be_bytes();
    let fdf = FDF_RATES.iter().position(|rate| *rate == shape.rate).unwrap_or(0) as u8;
    let mut headers = vec![0; 16];
    headers.extend_from_slice(&ETHERNET);
    match to {
        To::Am824 => headers.extend_from_slice(&[0x00, 0x81, 0, 0]),
        To::Aaf => headers.extend_from_slice(&[0x02, 0x81, 0, 0]),
    }
    headers.extend_from_slice(&id.to_be_bytes());
    match to {
        To::Am824 => headers.extend_from_slice(&[
            0, 0, 0, 0, 0, 0, 0, 0, 0, 0, 0x5f, 0xa0, 63, low, 0, 0, 0x90, fdf, 0xff, 0xff,
        ]),
        To::Aaf => headers.extend_from_slice(&[0, 0, 0, 0, 3, (fdf + 3) << 4 | high, low, 24, 0, 0, 0, 0]),
    }
    headers
}

impl Gateway {
    pub fn over(out: File, to: To, shape: Option<Shape>, id: u64) -> Self {
        let (headers, most) = match (shape, to) {
            (None, _) => (Vec::new(), 0),
            (Some(shape), To::Am824) => (headers_of(to, shape, id), 1468 / (4 * shape.channels)),
            (Some(shape), To::Aaf) => (headers_of(to, shape, id), 1476 / (3 * shape.channels)),
        };
        Gateway {
            out,
            to,
            shape,
            headers,
            most,
            block: 0,
            last: i64::MIN,
            batches: 0,
            packets: 0,
            skipped: 0,
            pieces: Vec::new(),
            waiting: Vec::with_capacity(ROOM),
        }
    }

    /// Converts a batch to packets, or returns why it is skipped.
    pub fn put(&mut self, batch: &Batch, text: &mut String) -> io::Result<()> {
        self.batches += 1;
        if let Err(reason) = self.cut(batch) {
            self.skipped += 1;
            let _ = writeln!(text, "skip frame {} {reason}", batch.frame);
            return Ok(());
        }
        for place in 0..self.pieces.len() {
            self.write(batch, self.pieces[place])?;
        }
        Ok(())
    }

    #[inline(always)]
    fn cut(&mut self, batch: &Batch) -> Result<(), &'static str> {
        let shaped = self.shape.is_some_and(|shape| {
            batch.channels == shape.channels && batch.is_aaf == (self.to == To::Am824) && (batch.is_aaf || are_linear(&batch.bytes))
        });
        if !shaped {
            return Err("shape");
        }
        if batch.instant <= self.last {
            return Err("overlap");
        }
        self.pieces.clear();
        let end = i64::from(batch.count - 1);
        if batch.from == 0 && batch.count <= self.most {
            self.pieces.push(Piece {
                first: 0,
                count: batch.count,
                instant: batch.instant,
            });
        } else {
            self.cut_by_instants(batch);
        }
        let late = |piece: &Piece| piece.instant - TRANSIT >= (1 << 32) * SECOND as i64;
        if self.pieces.last().is_some_and(late) {
            return Err("range");
        }
        self.last = batch.head + offset(batch.from + end, batch.rate);
        Ok(())
    }

    fn cut_by_instants(&mut self, batch: &Batch) {
        let mut piece = Piece {
            first: 0,
            count: 0,
            instant: batch.instant,
        };
        for j in 0..batch.count {
            let instant = batch.head + offset(batch.from + i64::from(j), batch.rate);
            if piece.count == self.most || instant != piece.instant + offset(piece.count.into(), batch.rate) {
                self.pieces.push(piece);
                piece = Piece {
                    first: j,
                    count: 0,
                    instant,
                };
            }
            piece.count += 1;
        }
        self.pieces.push(piece);
    }

    #[inline(always)]
    fn write(&mut self, batch: &Batch, piece: Piece) -> io::Result<()> {
        let values = (piece.count * batch.channels) as usize;
        let (size, width) = match self.to {
            To::Am824 => (4, 3),
            To::Aaf => (3, 4),
        };
        let len = self.headers.len() + values * size;
        if self.waiting.len() + len > ROOM {
            self.out.write_all(&self.waiting)?;
            self.waiting.clear();
        }
        let arrival = (piece.instant - TRANSIT).max(0) as u64;
        let start = self.waiting.len();
        self.waiting.extend_from_slice(&self.headers);
        let head = &mut self.waiting[start..];
        head[..4].copy_from_slice(&((arrival / SECOND) as u32).to_le_bytes());
        head[4..8].copy_from_slice(&((arrival % SECOND) as u32).to_le_bytes());
        head[8..12].copy_from_slice(&(len as u32 - 16).to_le_bytes());
        head[12..16].copy_from_slice(&(len as u32 - 16).to_le_bytes());
        head[36] = self.packets as u8;
        head[46..50].copy_from_slice(&(piece.instant as u32).to_be_bytes());
        let stated = (len - 16 - 18 - 24) as u16;
        head[54..56].copy_from_slice(&stated.to_be_bytes());
        let from = piece.first as usize * batch.channels as usize * width;
        let values = &batch.bytes[from..from + values * width];
        match self.to {
            To::Am824 => {
                head[61] = self.block;
                let interval = interval_of(batch.rate);
                self.block = ((u32::from(self.block) + piece.count).div_ceil(interval) * interval) as u8;
                for value in values.as_chunks::<3>().0 {
                    self.waiting.extend_from_slice(&[0x40, value[0], value[1], value[2]]);
                }
            }
            To::Aaf => {
                for quadlet in values.as_chunks::<4>().0 {
                    self.waiting.extend_from_slice(&quadlet[1..]);
                }
            }
        }
        self.packets += 1;
        Ok(())
    }

    /// Writes what waits, and returns the numbers of batches, packets and skipped batches.
    pub fn end(mut self) -> io::Result<(u64, u64, u64)> {
        self.out.write_all(&self.waiting)?;
        Ok((self.batches, self.packets, self.skipped))
    }
}
