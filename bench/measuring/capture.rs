//! Makes the captures that `bench/run` measures with, of AAF packets of one stream: 16-bit stereo at 48 kHz, six sample
//! frames each. Packet n arrives at 1 s + n * 125 us, has the sequence number n mod 256, and is due 2 ms after its arrival.
//!
//! - `capture OUT COUNT`: COUNT packets, in little-endian nanoseconds.
//! - `capture OUT COUNT ng`: these packets as a pcapng capture, in nanoseconds.
//! - `capture OUT COUNT STREAMS`: packets of STREAMS streams in turn, each with sequence numbers of its own and one
//!   packet in 125 us.
//! - `capture OUT COUNT STREAMS faulty`: the same with faults. Of 64 packets, about 4 are lost, 4 come twice, 8 toggle the
//!   restart bit, and one each has a reserved bit set, no timestamp, or a stream id that is not valid.
//! - `capture OUT COUNT lost SEED`: COUNT packets of which one in 100 is lost. Which ones depends on the seed.
//! - `capture OUT COUNT burst ORDER SIDE`: COUNT packets in bursts of 256, as capture `a` or `b` of two whose matching has to
//!   search. In `one` all packets have the same sequence number, and those of A are out of reach of those of B. In `strange` no
//!   packet is in both captures. In `falling` and `middle` a burst is due at one instant, and the next packet of B is the last of
//!   A's that wait, or the middle one.
//! - `capture OUT COUNT clock TIMESTAMPS COVERED`: COUNT packets and a media clock with TIMESTAMPS timestamps in each of its
//!   packets. In `each` the clock covers all packets, by one timestamp for every 16. In `none` and `oldest` 64 packets of the clock
//!   come first. They cover no packet, or their first two timestamps cover all.
//! - `capture OUT COUNT damaged IN`: the packets of the classic capture IN in turn. Half of them are damaged, and one in 16 comes
//!   twice.
//! - `capture OUT COUNT STYLE`: packets in `le-ns`, `le-us`, `be-ns` or `be-us`. Half of them are damaged, and one in 16 comes
//!   twice. The last 1,024 of every 2,048 are sparse, with one timestamp in eight. Then come a frame of the greatest length and a
//!   record that is cut off.

#[path = "../yardsticks/packets.rs"]
mod packets;
#[path = "../yardsticks/pcap.rs"]
mod pcap;

use packets::{Capture, LONGEST, SEQUENCE_NUM, TIMESTAMP, packet, packet_of};
use pcap::read_records;
use std::env;
use std::fs::File;
use std::io::{self, BufWriter, Error, Write};

/// Where `sv`, `mr`, two reserved bits and `tv` are in the frame.
const FLAGS: usize = 19;
const SV: u8 = 0x80;
const MR: u8 = 0x08;
const RESERVED: u8 = 0x06;
const TV: u8 = 0x01;

/// Where `sp` is in the frame.
const SP: usize = 40;

/// Packets that `packet_at` makes, half of them damaged, and one in 16 twice.
fn put_damaged_packets(
    capture: &mut Capture<impl Write>,
    count: u64,
    packet_at: impl Fn(u64) -> Vec<u8>,
) -> io::Result<()> {
    let mut noise = 1;
    for n in 0..count {
        let mut frame = packet_at(n);
        if n % 2 == 1 {
            damage(&mut frame, &mut noise);
        }
        for _ in 0..if n % 16 == 2 { 2 } else { 1 } {
            capture.record(n, &frame)?;
        }
    }
    Ok(())
}

/// Packet n of a stream in which the last 1,024 of every 2,048 packets are sparse.
fn half_sparse_packet(n: u64) -> Vec<u8> {
    let mut frame = packet(n).to_vec();
    if n % 2048 < 1024 {
        return frame;
    }
    frame[SP] |= 0x10;
    if n % 8 != 0 {
        frame[FLAGS] &= !TV;
        frame[TIMESTAMP..TIMESTAMP + 4].fill(0);
    }
    frame
}

fn draw(noise: &mut u64, below: usize) -> usize {
    *noise = noise
        .wrapping_mul(6_364_136_223_846_793_005)
        .wrapping_add(1_442_695_040_888_963_407);
    (*noise >> 33) as usize % below
}

/// Changes two bytes among the first 66 of the frame, and cuts one frame in four off somewhere among them.
fn damage(frame: &mut Vec<u8>, noise: &mut u64) {
    let head = frame.len().min(66);
    for _ in 0..2 {
        frame[draw(noise, head)] = draw(noise, 256) as u8;
    }
    if draw(noise, 4) == 0 {
        frame.truncate(draw(noise, head));
    }
}

/// The arrival of packet n, counted over streams that take turns. Each of them sends a packet every 125 us.
fn arrival_of(n: u64, streams: u64) -> u64 {
    1_000_000_000 + n * 125_000 / streams
}

/// Packet n, counted over streams that take turns.
fn paced_packet(n: u64, streams: u64) -> [u8; 66] {
    let mut frame = packet_of(n, streams);
    let due = arrival_of(n, streams) + 2_000_000;
    frame[TIMESTAMP..TIMESTAMP + 4].copy_from_slice(&(due as u32).to_be_bytes());
    frame
}

/// Packets of this many streams in turn, with faults.
fn put_faulty_packets(capture: &mut Capture<impl Write>, count: u64, streams: u64) -> io::Result<()> {
    let mut restarts = vec![0; streams as usize];
    let mut noise = 1;
    for n in 0..count {
        let mut frame = paced_packet(n, streams);
        let restart = &mut restarts[(n % streams) as usize];
        let fault = draw(&mut noise, 64);
        match fault {
            0..4 => continue,
            8..16 => *restart ^= MR,
            16 => frame[FLAGS] |= RESERVED,
            17 => frame[FLAGS] &= !TV,
            18 => frame[FLAGS] &= !SV,
            _ => {}
        }
        frame[FLAGS] |= *restart;
        for _ in 0..if (4..8).contains(&fault) { 2 } else { 1 } {
            capture.record_at(arrival_of(n, streams), &frame)?;
        }
    }
    Ok(())
}

fn frames_of(path: &str) -> io::Result<Vec<Vec<u8>>> {
    let mut frames = Vec::new();
    let end = read_records(File::open(path)?, |_, _, frame| {
        frames.push(frame.to_vec());
        Ok(())
    })?;
    match end {
        Ok(1..) => Ok(frames),
        _ => Err(Error::other(format!("{path} is no classic capture with packets"))),
    }
}

/// Packets of one stream, of which one in 100 is lost.
fn put_lossy_packets(capture: &mut Capture<impl Write>, count: u64, seed: u64) -> io::Result<()> {
    let mut noise = seed;
    for n in 0..count {
        if draw(&mut noise, 100) > 0 {
            capture.record(n, &packet(n))?;
        }
    }
    Ok(())
}

/// The packets of a burst.
const BURST: u64 = 256;

/// The number of packet k of a burst of B: that of the middle one of A's packets that still wait.
fn middle(k: u64) -> u64 {
    let half = BURST / 2;
    if k % 2 == 0 { half - k / 2 - 1 } else { half + k / 2 }
}

/// The sequence number of packet k of a burst, and how long after the burst's start it is due.
fn packet_in_burst(order: &str, is_b: bool, k: u64) -> io::Result<(u64, u64)> {
    Ok(match (order, is_b) {
        ("one", false) => (0, k),
        ("one", true) => (0, 8_100_000 + k),
        ("strange", _) => (k / 2 * 2 + u64::from(is_b), k),
        ("falling" | "middle", false) => (k, 0),
        ("falling", true) => (BURST - 1 - k, 0),
        ("middle", true) => (middle(k), 0),
        _ => return Err(Error::other(format!("{order} is no order"))),
    })
}

/// Packets in bursts. They arrive 3 ms before they are due.
fn put_bursts(capture: &mut Capture<impl Write>, count: u64, order: &str, is_b: bool) -> io::Result<()> {
    let time = if order == "one" { 16_200_000 } else { 1_000_000 };
    for n in 0..count {
        let start = 1_000_000_000 + n / BURST * time;
        let (number, after) = packet_in_burst(order, is_b, n % BURST)?;
        let mut frame = packet(0);
        frame[SEQUENCE_NUM] = number as u8;
        frame[TIMESTAMP..TIMESTAMP + 4].copy_from_slice(&((start + 3_000_000 + after) as u32).to_be_bytes());
        capture.record_at(start + n % BURST, &frame)?;
    }
    Ok(())
}

/// The frame of a packet of the media clock without its length, its interval and its timestamps: at 48 kHz.
const CLOCK_FRAME: [u8; 34] = [
    0x91, 0xe0, 0xf0, 0x00, 0xfe, 0x00, 0x02, 0, 0, 0, 0, 1, 0x81, 0x00, 0x60, 0x02, 0x22, 0xf0, //
    0x04, 0x80, 0, 0x01, 0x02, 0, 0, 0, 0, 1, 0, 2, 0, 0, 0xbb, 0x80,
];

/// How many packets of a media clock a listener keeps.
const WINDOW: u64 = 64;

/// A packet of a media clock at 48 kHz, with a timestamp for every `interval` samples.
fn clock_packet(number: u64, interval: u16, timestamps: u64, from: u64, step: u64) -> Vec<u8> {
    let mut frame = CLOCK_FRAME.to_vec();
    frame[SEQUENCE_NUM] = number as u8;
    frame.extend((8 * timestamps as u16).to_be_bytes());
    frame.extend(interval.to_be_bytes());
    for i in 0..timestamps {
        frame.extend((from + i * step).to_be_bytes());
    }
    frame
}

/// An AAF packet that is due at an instant.
fn due_packet(n: u64, due: u64) -> [u8; 66] {
    let mut frame = packet(n);
    frame[TIMESTAMP..TIMESTAMP + 4].copy_from_slice(&(due as u32).to_be_bytes());
    frame
}

/// Packets that a media clock covers, and the clock's packets.
fn put_clocked(capture: &mut Capture<impl Write>, count: u64, timestamps: u64) -> io::Result<()> {
    let each = 16 * timestamps;
    for n in 0..count {
        if n % each == 0 {
            let from = 1_002_000_000 + n * 125_000;
            capture.record(n, &clock_packet(n / each, 96, timestamps, from, 2_000_000))?;
        }
        capture.record(n, &packet(n))?;
    }
    Ok(())
}

/// A full window of a media clock's packets, and then packets of which it covers none, or which its first two timestamps cover.
fn put_behind_clock(capture: &mut Capture<impl Write>, count: u64, timestamps: u64, oldest: bool) -> io::Result<()> {
    let step = 1_365_312_500;
    let first = 1_000_000_000;
    for number in 0..WINDOW {
        let from = first + number * timestamps * step;
        capture.record_at(first, &clock_packet(number, u16::MAX, timestamps, from, step))?;
    }
    let behind = if oldest { 1 } else { WINDOW * timestamps + 2 };
    let start = first + behind * step + 1_000_000;
    for n in 0..count {
        let arrival = start + n * 1_000;
        capture.record_at(arrival, &due_packet(n, arrival + 20_000))?;
    }
    Ok(())
}

/// A section header, an interface in nanoseconds, and an enhanced packet block for each packet.
fn write_pcapng(path: &str, count: u64) -> io::Result<()> {
    let mut out = BufWriter::new(File::create(path)?);
    for number in [0x0a0d_0d0a_u32, 28, 0x1a2b_3c4d, 1, u32::MAX, u32::MAX, 28] {
        out.write_all(&number.to_le_bytes())?;
    }
    for number in [1_u32, 32, 1, LONGEST as u32, 9 | 1 << 16, 9, 0, 32] {
        out.write_all(&number.to_le_bytes())?;
    }
    for n in 0..count {
        let frame = packet(n);
        let time = 1_000_000_000 + n * 125_000;
        let len = frame.len() as u32;
        let block = 32 + len.next_multiple_of(4);
        for number in [6, block, 0, (time >> 32) as u32, time as u32, len, len] {
            out.write_all(&number.to_le_bytes())?;
        }
        out.write_all(&frame)?;
        out.write_all(&[0; 3][..(block - 32 - len) as usize])?;
        out.write_all(&block.to_le_bytes())?;
    }
    out.flush()
}

fn main() -> io::Result<()> {
    let words: Vec<String> = env::args().skip(1).collect();
    let words: Vec<&str> = words.iter().map(String::as_str).collect();
    let [path, count, how @ ..] = words.as_slice() else {
        return Err(Error::other("capture OUT COUNT [ng, STREAMS [faulty], lost SEED, burst ORDER SIDE, clock TIMESTAMPS COVERED, damaged IN, or STYLE]"));
    };
    let count: u64 = count.parse().map_err(Error::other)?;
    if how == ["ng"] {
        return write_pcapng(path, count);
    }
    let style = how.first().copied().unwrap_or_default();
    let mut capture = Capture {
        out: BufWriter::new(File::create(path)?),
        big_endian: style.starts_with("be"),
        unit: if style.ends_with("us") { 1000 } else { 1 },
    };
    capture.header()?;
    match how {
        [] => {
            for n in 0..count {
                capture.record(n, &packet(n))?;
            }
        }
        ["lost", seed] => put_lossy_packets(&mut capture, count, seed.parse().map_err(Error::other)?)?,
        ["burst", order, side] => put_bursts(&mut capture, count, order, *side == "b")?,
        ["clock", timestamps, covered] => {
            let timestamps = timestamps.parse().map_err(Error::other)?;
            match *covered {
                "each" => put_clocked(&mut capture, count, timestamps)?,
                "none" => put_behind_clock(&mut capture, count, timestamps, false)?,
                "oldest" => put_behind_clock(&mut capture, count, timestamps, true)?,
                other => return Err(Error::other(format!("{other} is not each, none or oldest"))),
            }
        }
        ["damaged", whole] => {
            let frames = frames_of(whole)?;
            put_damaged_packets(&mut capture, count, |n| frames[n as usize % frames.len()].clone())?;
        }
        ["le-ns" | "le-us" | "be-ns" | "be-us"] => {
            put_damaged_packets(&mut capture, count, half_sparse_packet)?;
            capture.record(count, &[0; LONGEST])?;
            capture.numbers(&[0, 0, 66])?;
        }
        [streams, faulty @ ..] => {
            let streams = streams.parse().map_err(Error::other)?;
            if faulty == ["faulty"] {
                put_faulty_packets(&mut capture, count, streams)?;
            } else {
                for n in 0..count {
                    capture.record_at(arrival_of(n, streams), &paced_packet(n, streams))?;
                }
            }
        }
    }
    capture.out.flush()
}
