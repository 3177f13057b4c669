//! The yardstick of `bench/run` for a listener: `listener STREAMS PACKETS` makes the capture that `measured listener` makes of
//! these words, and listens to its first stream by the same design, without contracts. It reads records in pieces, examines each
//! in the buffer that it was read into, copies the samples of a packet of the stream once, and judges it. It prints how many
//! packets are presented, and in how many nanoseconds, once the capture was made.

mod aaf;
mod items;
mod packets;
mod pcap;
mod schedule;
mod stream;

use items::item_of;
use packets::{Capture, packet_of};
use pcap::{Refusal, read_records};
use schedule::{Judge, Plan, drain};
use std::env;
use std::io::{self, Error};
use std::time::Instant;
use stream::packet_of_stream;

const STREAM: u64 = 0x0200_0000_0001_0000;

const PLAN: Plan = Plan {
    buffer: 4_096,
    room: 67_108_864,
    look: 0,
    lead: 2_000_000,
    clock: false,
};

fn capture_of(streams: u64, packets: u64) -> io::Result<Vec<u8>> {
    let mut capture = Capture {
        out: Vec::new(),
        big_endian: false,
        unit: 1,
    };
    capture.header()?;
    for n in 0..packets {
        capture.record(n, &packet_of(n, streams))?;
    }
    Ok(capture.out)
}

/// How many packets of the first stream are presented.
fn listen(judge: &mut Judge, capture: &[u8]) -> io::Result<u64> {
    let stream = STREAM.to_be_bytes();
    let mut presented = 0;
    let end = read_records(capture, |frame, arrival, bytes| {
        if let Some(pdu) = packet_of_stream(bytes, stream) {
            judge.step(item_of(frame, arrival as i64, pdu));
            presented += drain(judge);
        }
        Ok(())
    })?;
    if let Err(Refusal(field, at, _)) = end {
        return Err(Error::other(format!("{field} at {at} is refused")));
    }
    judge.close();
    Ok(presented + drain(judge))
}

fn main() -> io::Result<()> {
    let words: Vec<String> = env::args().skip(1).collect();
    let [streams, packets] = &words[..] else {
        return Err(Error::other("listener STREAMS PACKETS"));
    };
    let capture = capture_of(
        streams.parse().map_err(Error::other)?,
        packets.parse().map_err(Error::other)?,
    )?;
    let mut judge = Judge::begin(PLAN);
    let start = Instant::now();
    let presented = listen(&mut judge, &capture)?;
    println!("{presented} {}", start.elapsed().as_nanos());
    Ok(())
}
