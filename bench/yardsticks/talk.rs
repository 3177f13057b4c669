//! The yardstick of `bench/run` for `talk`: `talk IN OUT` makes the capture that `avtp talk IN OUT` makes. It is written as
//! tightly as an unverified program can be. It reads all samples at once, and encodes one record. For each packet it copies this
//! record after the waiting bytes, and writes the samples, the sequence number and the times into the copy. The times go on from
//! packet to packet without a division. It has no options: the samples are 16-bit stereo at 48 kHz, and each packet has six
//! sample frames.

#[allow(dead_code)] // It makes packets of one stream alone.
mod packets;

use packets::{Capture, SEQUENCE_NUM, TIMESTAMP, packet};
use std::env;
use std::fs::{self, File};
use std::io::{self, Error, Write};

/// The bytes that wait for the file.
const ROOM: usize = 65_536;

/// The header of a record, and where the samples are in the frame.
const HEADER: usize = 16;
const SAMPLES: usize = 42;
const SAMPLES_LEN: usize = 24;
const RECORD: usize = HEADER + SAMPLES + SAMPLES_LEN;

const SECOND: u32 = 1_000_000_000;
const PERIOD: u32 = 125_000;

/// When a packet is captured, and when it is due.
struct Times {
    seconds: u32,
    nanoseconds: u32,
    stamp: u32,
}

impl Times {
    #[inline(always)]
    fn go_on(&mut self) {
        self.nanoseconds += PERIOD;
        if self.nanoseconds >= SECOND {
            self.nanoseconds -= SECOND;
            self.seconds += 1;
        }
        self.stamp = self.stamp.wrapping_add(PERIOD);
    }
}

/// The first record.
fn template() -> io::Result<[u8; RECORD]> {
    let mut capture = Capture {
        out: Vec::new(),
        big_endian: false,
        unit: 1,
    };
    capture.record(0, &packet(0))?;
    capture.out.try_into().map_err(|_| Error::other("a record of another length"))
}

#[inline(always)]
fn put(record: &mut [u8; RECORD], seq: u8, times: &Times, samples: &[u8; SAMPLES_LEN]) {
    record[..4].copy_from_slice(&times.seconds.to_le_bytes());
    record[4..8].copy_from_slice(&times.nanoseconds.to_le_bytes());
    record[HEADER + SEQUENCE_NUM] = seq;
    record[HEADER + TIMESTAMP..HEADER + TIMESTAMP + 4].copy_from_slice(&times.stamp.to_be_bytes());
    record[HEADER + SAMPLES..].copy_from_slice(samples);
}

/// Writes a record for each packet's samples, and returns how many packets there are.
fn write_records(out: &mut File, samples: &[u8]) -> io::Result<u64> {
    let (packets, []) = samples.as_chunks::<SAMPLES_LEN>() else {
        return Err(Error::other("the samples fill no whole packets"));
    };
    let record = template()?;
    let mut waiting = Vec::with_capacity(ROOM);
    let mut times = Times {
        seconds: 1,
        nanoseconds: 0,
        stamp: SECOND + 2_000_000,
    };
    for (n, samples) in packets.iter().enumerate() {
        if waiting.len() + RECORD > ROOM {
            out.write_all(&waiting)?;
            waiting.clear();
        }
        waiting.extend_from_slice(&record);
        let Some(place) = waiting.last_chunk_mut() else {
            unreachable!()
        };
        put(place, n as u8, &times, samples);
        times.go_on();
    }
    out.write_all(&waiting)?;
    Ok(packets.len() as u64)
}

fn main() -> io::Result<()> {
    let words: Vec<String> = env::args().skip(1).collect();
    let [input, output] = &words[..] else {
        return Err(Error::other("talk IN OUT"));
    };
    let samples = fs::read(input)?;
    let mut capture = Capture {
        out: File::create(output)?,
        big_endian: false,
        unit: 1,
    };
    capture.header()?;
    let packets = write_records(&mut capture.out, &samples)?;
    println!("talk packets {packets} clock 0");
    Ok(())
}
