//! The yardstick of `bench/run` for `show`: `show FILE` prints what `avtp show FILE` prints of a classic capture, byte for byte.
//! It is written as tightly as an unverified program can be. It examines frames in the buffer that they were read into, and
//! writes each line directly after the waiting text, without bounds checks. It has no options.

mod aaf;
mod formats;
mod pcap;
mod text;

use aaf::{HEADER, read_aaf};
use formats::{check_crf, read_h264, read_iec, u32_at};
use pcap::{Refusal, read_frame, read_records, u16_at};
use std::env;
use std::fs::File;
use std::io;
use std::process::ExitCode;
use text::{Line, Text};

#[inline(always)]
fn show_flag<const N: usize>(line: &mut Line, label: &[u8; N], flag: u8) {
    line.add(label);
    line.add(&[b'0' + flag]);
}

#[inline(always)]
fn show_id<const N: usize>(line: &mut Line, label: &[u8; N], pdu: &[u8]) {
    let id: [u8; 8] = pdu[4..12].try_into().unwrap();
    line.add(label);
    line.hex(&id);
}

#[inline(always)]
fn show_header<const N: usize>(line: &mut Line, label: &[u8; N], pdu: &[u8; HEADER]) {
    show_id(line, label, pdu);
    line.number(b" seq ", pdu[2].into());
    line.number(b" ts ", u32_at(pdu, 12).into());
    show_flag(line, b" tv ", pdu[1] & 1);
    show_flag(line, b" tu ", pdu[3] & 1);
    show_flag(line, b" mr ", pdu[1] >> 3 & 1);
}

#[inline(always)]
fn show_aaf(line: &mut Line, pdu: &[u8]) -> Result<(), Refusal> {
    let (format, frame, rate) = read_aaf(pdu)?;
    let pdu: &[u8; HEADER] = pdu[..HEADER].try_into().unwrap();
    let stated = u16_at(pdu, 20);
    show_header(line, b" aaf id ", pdu);
    show_flag(line, b" sp ", pdu[22] >> 4 & 1);
    line.number(b" evt ", (pdu[22] & 15).into());
    line.add(b" format ");
    line.text(format);
    line.number(b" rate ", rate.into());
    line.number(b" channels ", (u16_at(pdu, 17) & 0x3ff).into());
    line.number(b" depth ", pdu[19].into());
    line.number(b" count ", (u32::from(stated) / frame).into());
    line.number(b" bytes ", stated.into());
    Ok(())
}

fn show_iec(line: &mut Line, pdu: &[u8]) -> Result<(), Refusal> {
    let (quadlets, count) = read_iec(pdu)?;
    show_header(line, b" iec id ", pdu[..HEADER].try_into().unwrap());
    line.number(b" dbs ", quadlets.into());
    line.number(b" dbc ", pdu[27].into());
    line.number(b" fdf ", pdu[29].into());
    line.number(b" count ", count.into());
    line.number(b" bytes ", u16_at(pdu, 20).into());
    Ok(())
}

fn show_h264(line: &mut Line, pdu: &[u8]) -> Result<(), Refusal> {
    let (nal, part) = read_h264(pdu)?;
    show_header(line, b" h264 id ", pdu[..HEADER].try_into().unwrap());
    show_flag(line, b" ptv ", pdu[22] >> 5 & 1);
    line.number(b" pt ", u32_at(pdu, 24).into());
    show_flag(line, b" marker ", pdu[22] >> 4 & 1);
    line.number(b" nal ", nal.into());
    line.add(b" part ");
    line.text(part.name());
    line.number(b" bytes ", u16_at(pdu, 20).into());
    Ok(())
}

fn show_crf(line: &mut Line, pdu: &[u8]) -> Result<(), Refusal> {
    check_crf(pdu)?;
    show_id(line, b" crf id ", pdu);
    line.number(b" seq ", pdu[2].into());
    show_flag(line, b" mr ", pdu[1] >> 3 & 1);
    show_flag(line, b" tu ", pdu[1] & 1);
    line.number(b" type ", pdu[3].into());
    line.number(b" base ", (u32_at(pdu, 12) & 0x1fff_ffff).into());
    line.number(b" pull ", (pdu[12] >> 5).into());
    line.number(b" interval ", u16_at(pdu, 18).into());
    line.number(b" points ", (u16_at(pdu, 16) / 8).into());
    let first = u64::from_be_bytes(pdu[20..28].try_into().unwrap());
    line.number(b" first ", first);
    Ok(())
}

/// The line of a packet that is refused. It takes the line and returns it, so that the line of an accepted packet can stay in
/// registers.
#[cold]
#[inline(never)]
fn refused<'a>(mut line: Line<'a>, refusal: Refusal, start: usize) -> Line<'a> {
    let Refusal(field, at, short) = refusal;
    line.refusal(b" refused ", Refusal(field, start + at, short));
    line
}

/// The line of a packet of a subtype other than AAF.
#[cold]
#[inline(never)]
fn another<'a>(mut line: Line<'a>, pdu: &[u8], start: usize) -> Line<'a> {
    let shown = match pdu.first() {
        None => Err(Refusal("subtype", 0, true)),
        Some(0) => show_iec(&mut line, pdu),
        Some(3) => show_h264(&mut line, pdu),
        Some(4) => show_crf(&mut line, pdu),
        Some(&subtype) => {
            line.number(b" other ", subtype.into());
            Ok(())
        }
    };
    match shown {
        Ok(()) => line,
        Err(refusal) => refused(line, refusal, start),
    }
}

/// The line of a frame of an EtherType other than AVTP's.
#[cold]
#[inline(never)]
fn passed<'a>(mut line: Line<'a>, ethertype: u16, len: usize) -> Line<'a> {
    line.number(b" ethertype ", ethertype.into());
    line.number(b" bytes ", len as u64);
    line
}

#[inline(always)]
fn show_frame<'a>(mut line: Line<'a>, frame: &[u8]) -> Line<'a> {
    let (ethertype, start) = match read_frame(frame) {
        Ok(read) => read,
        Err(refusal) => return refused(line, refusal, 0),
    };
    let pdu = &frame[start..];
    if ethertype != 0x22f0 {
        return passed(line, ethertype, pdu.len());
    }
    if pdu.first() != Some(&2) {
        return another(line, pdu, start);
    }
    match show_aaf(&mut line, pdu) {
        Ok(()) => line,
        Err(refusal) => refused(line, refusal, start),
    }
}

fn main() -> io::Result<ExitCode> {
    let path = env::args().nth(1).ok_or(io::ErrorKind::InvalidInput)?;
    let mut text = Text::over(io::stdout());
    let end = read_records(File::open(path)?, |number, arrival, frame| {
        let mut line = text.line(Line::ROOM)?;
        line.number(b"frame ", number);
        line.number(b" at ", arrival);
        show_frame(line, frame).end();
        Ok(())
    })?;
    let status = if end.is_ok() { 0 } else { 3 };
    let mut line = text.line(Line::ROOM)?;
    match end {
        Ok(frames) => line.number(b"end frames ", frames),
        Err(refusal) => line.refusal(b"capture refused: ", refusal),
    }
    line.end();
    text.flush()?;
    Ok(ExitCode::from(status))
}
