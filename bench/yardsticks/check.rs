//! The yardstick of `bench/run` for `check`: `check FILE..` prints what `avtp check FILE..` prints of classic captures, byte for
//! byte. It is written as tightly as an unverified program can be. It examines packets in the buffer that they were read into,
//! keeps their streams in a flat table, and makes no call for a packet that breaks no rule. It has no options, and expects files
//! that can be read.

mod aaf;
mod formats;
mod pcap;
mod text;
mod tracker;

use aaf::{HEADER, read_aaf};
use formats::{Part, check_crf, read_h264, read_iec};
use pcap::{Refusal, read_frame, read_records, u16_at};
use std::env;
use std::fs::File;
use std::io;
use std::process::ExitCode;
use text::{Line, Text};
use tracker::{Order, Tracker};

/// The rules that a packet breaks, whatever other packets come.
struct Own {
    /// A reserved bit is set.
    reserved: bool,
    /// It has a timestamp that it must not have, or lacks one that it must have.
    stamp: bool,
}

fn u64_at(bytes: &[u8], at: usize) -> u64 {
    u64::from_be_bytes(bytes[at..at + 8].try_into().unwrap())
}

/// Whether a packet of samples has a timestamp that it must not have, or lacks one that it must have.
#[inline(always)]
fn is_off(pdu: &[u8], samples: bool, must_stamp: bool) -> bool {
    samples && (pdu[1] & 1 != 0) != must_stamp
}

#[inline(always)]
fn check_aaf(pdu: &[u8]) -> Result<Own, Refusal> {
    read_aaf(pdu)?;
    let pdu: &[u8; HEADER] = pdu[..HEADER].try_into().unwrap();
    let reserved = u64_at(pdu, 0) & 0x0006_00fe_0000_0000 | u64_at(pdu, 16) & 0x000c_0000_0000_e0ff;
    let sparse = pdu[22] & 0x10 != 0;
    Ok(Own {
        reserved: reserved != 0,
        stamp: is_off(pdu, u16_at(pdu, 20) > 0, !sparse || pdu[2] % 8 == 0),
    })
}

fn check_iec(pdu: &[u8]) -> Result<Own, Refusal> {
    const INTERVALS: [u32; 7] = [8, 8, 8, 16, 16, 32, 32];
    let (_, count) = read_iec(pdu)?;
    // A packet without data has no interval, and no data block.
    let interval = INTERVALS.get(usize::from(pdu[29])).copied().unwrap_or(1);
    let stamped = u32::from(pdu[27]).wrapping_neg() % interval;
    Ok(Own {
        reserved: pdu[1] & 0x04 | pdu[3] & 0xfe | pdu[26] & 0x03 != 0,
        stamp: is_off(pdu, count > 0, stamped < count),
    })
}

fn check_h264(pdu: &[u8]) -> Result<Own, Refusal> {
    let (_, part) = read_h264(pdu)?;
    let fragment = if let Part::Single = part { 0 } else { pdu[29] & 0x20 };
    let header = u64_at(pdu, 0) & 0x0006_00fe_0000_0000 | u64_at(pdu, 16) & 0x0000_ffff_0000_c0ff;
    Ok(Own {
        reserved: header | u64::from(fragment) != 0,
        stamp: is_off(pdu, matches!(part, Part::Single | Part::Last), true),
    })
}

/// The rules that a packet of a subtype other than AAF breaks, whatever other packets come, if its format is known.
#[inline(never)]
fn another(pdu: &[u8]) -> Result<Option<Own>, Refusal> {
    match pdu.first() {
        None => Err(Refusal("subtype", 0, true)),
        Some(0) => check_iec(pdu).map(Some),
        Some(3) => check_h264(pdu).map(Some),
        Some(4) => check_crf(pdu).map(|()| {
            Some(Own {
                reserved: pdu[1] & 0x04 != 0,
                stamp: false,
            })
        }),
        Some(_) => Ok(None),
    }
}

#[cold]
#[inline(never)]
fn print_malformed(text: &mut Text, number: u64, refusal: Refusal, start: usize) -> io::Result<u64> {
    let Refusal(field, at, short) = refusal;
    let mut line = text.line(Line::ROOM)?;
    line.number(b"finding frame ", number);
    line.refusal(b" malformed ", Refusal(field, start + at, short));
    line.end();
    Ok(1)
}

/// Adds a line for each finding in a packet. Returns how many there are.
#[cold]
#[inline(never)]
fn print_findings(text: &mut Text, number: u64, id: u64, own: Own, order: Order) -> io::Result<u64> {
    let mut findings = 0;
    let mut print = |end: &dyn Fn(&mut Line)| {
        let mut line = text.line(Line::ROOM)?;
        line.number(b"finding frame ", number);
        line.add(b" id ");
        line.hex(&id.to_be_bytes());
        end(&mut line);
        line.end();
        findings += 1;
        Ok::<(), io::Error>(())
    };
    if own.reserved {
        print(&|line| line.add(b" reserved"))?;
    }
    if order.untracked {
        print(&|line| line.add(b" streams"))?;
    }
    if order.step != 1 {
        print(&|line| line.number(b" step ", order.step.into()))?;
    }
    if let Some(packets) = order.hold() {
        print(&|line| line.number(b" hold ", packets.into()))?;
    }
    if own.stamp {
        print(&|line| line.add(b" stamp"))?;
    }
    Ok(findings)
}

/// Checks a packet of AVTP that begins at `start` in its frame. Returns how many findings were printed.
#[inline(always)]
fn check_packet(text: &mut Text, tracker: &mut Tracker, number: u64, pdu: &[u8], start: usize) -> io::Result<u64> {
    let checked = if pdu.first() == Some(&2) { check_aaf(pdu).map(Some) } else { another(pdu) };
    let mut own = match checked {
        Ok(Some(own)) => own,
        Ok(None) => return Ok(0),
        Err(refusal) => return print_malformed(text, number, refusal, start),
    };
    let id = u64_at(pdu, 4);
    let mut order = Order::KEPT;
    if pdu[1] & 0x80 != 0 {
        order = tracker.note(pdu[0], id, pdu[2], pdu[1] & 0x08 != 0);
        own.stamp &= !order.untracked;
    } else {
        own.stamp = false;
    }
    if own.reserved | own.stamp | !order.is_kept() {
        return print_findings(text, number, id, own, order);
    }
    Ok(0)
}

/// Checks a capture. Returns the status.
fn check(text: &mut Text, path: &str) -> io::Result<u8> {
    let file = File::open(path)?;
    let mut line = text.line(Line::ROOM + path.len())?;
    line.add(b"capture ");
    line.text(path);
    line.end();

    let mut tracker = Tracker::new();
    let mut findings = 0;
    let end = read_records(file, |number, _, frame| {
        findings += match read_frame(frame) {
            Ok((0x22f0, start)) => check_packet(text, &mut tracker, number, &frame[start..], start)?,
            Ok(_) => 0,
            Err(refusal) => print_malformed(text, number, refusal, 0)?,
        };
        Ok(())
    })?;

    let mut line = text.line(Line::ROOM)?;
    let status = match end {
        Ok(frames) => {
            line.number(b"end frames ", frames);
            line.number(b" streams ", tracker.tracked() as u64);
            line.number(b" findings ", findings);
            u8::from(findings > 0)
        }
        Err(refusal) => {
            line.refusal(b"capture refused: ", refusal);
            3
        }
    };
    line.end();
    Ok(status)
}

fn main() -> io::Result<ExitCode> {
    let mut text = Text::over(io::stdout());
    let mut status = 0;
    for path in env::args().skip(1) {
        status = status.max(check(&mut text, &path)?);
        if status == 3 {
            break;
        }
    }
    text.flush()?;
    Ok(ExitCode::from(status))
}
