//! The yardstick of `bench/run` for `gateway`: `gateway am824|aaf STREAM IN OUT` prints and writes what `avtp gateway --to ..`
//! prints and writes for a classic capture. It is written as tightly as an unverified program can be. It reads IN twice: it looks
//! for what cannot be converted, and then listens. It has no other options.

mod aaf;
#[allow(dead_code)] // It reads audio alone.
mod formats;
#[allow(dead_code)] // It writes the file's header alone.
mod packets;
mod pcap;
#[allow(dead_code)] // It reads the packets itself.
mod stream;
mod turned;
mod waiting;

use packets::Capture;
use pcap::read_records;
use std::env;
use std::fs::File;
use std::io::{self, Error, Write};
use std::process::ExitCode;
use stream::packet_of_stream;
use turned::{Gateway, Shape, To, fault_of};
use waiting::{Audio, Waiting};

/// The fault of the first packet that cannot be converted, with the number of its record; or the shape of the stream.
fn scan(to: To, stream: [u8; 8], input: &str) -> io::Result<Result<Option<Shape>, (&'static str, u64)>> {
    let mut shape = None;
    let mut fault = None;
    let read = read_records(File::open(input)?, |number, _, frame| {
        if fault.is_none()
            && let Some(pdu) = packet_of_stream(frame, stream)
            && let Some(why) = fault_of(to, &mut shape, pdu)
        {
            fault = Some((why, number));
        }
        Ok(())
    })?;
    if let Some(fault) = fault {
        return Ok(Err(fault));
    }
    read.map_err(|refusal| Error::other(refusal.0))?;
    Ok(Ok(shape))
}

fn main() -> io::Result<ExitCode> {
    let words: Vec<String> = env::args().skip(1).collect();
    let [to, id, input, output] = &words[..] else {
        return Err(Error::other("gateway am824|aaf STREAM IN OUT"));
    };
    let to = if to == "am824" { To::Am824 } else { To::Aaf };
    let id = u64::from_str_radix(id, 16).map_err(Error::other)?;
    let stream = id.to_be_bytes();
    let shape = match scan(to, stream, input)? {
        Ok(shape) => shape,
        Err((fault, frame)) => {
            println!("gateway input: {fault} at frame {frame}");
            return Ok(ExitCode::from(9));
        }
    };
    let mut capture = Capture {
        out: File::create(output)?,
        big_endian: false,
        unit: 1,
    };
    capture.header()?;
    let mut gateway = Gateway::over(capture.out, to, shape, id);
    let mut waiting = Waiting::new();
    let mut text = String::new();
    let read = read_records(File::open(input)?, |number, arrival, frame| {
        let Some(pdu) = packet_of_stream(frame, stream) else {
            return Ok(());
        };
        waiting.go_on(arrival as i64);
        while let Some(batch) = waiting.next_due() {
            gateway.put(&batch, &mut text)?;
            waiting.reuse(batch.bytes);
        }
        if let Some(audio) = Audio::read(pdu) {
            waiting.judge(number, arrival as i64, pdu, &audio);
        }
        Ok(())
    })?;
    read.map_err(|refusal| Error::other(refusal.0))?;
    waiting.go_on(i64::MAX);
    while let Some(batch) = waiting.next_due() {
        gateway.put(&batch, &mut text)?;
    }
    let (batches, packets, skipped) = gateway.end()?;
    let mut out = io::stdout();
    out.write_all(text.as_bytes())?;
    writeln!(out, "gateway batches {batches} packets {packets} skipped {skipped}")?;
    Ok(ExitCode::from(u8::from(skipped > 0)))
}
