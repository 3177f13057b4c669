//! `measure_gateway AVTP YARDSTICK STREAM PACKETS OUT OTHER AM824 AAF`: runs `avtp gateway`, which writes OUT, in turn with its
//! yardstick, which writes OTHER. Both convert the capture AAF, of 24 bits, to AM824, and the capture AM824 to PCM. Prints a row
//! for each, from the best runs.

mod row;
mod runner;

use row::Row;
use runner::{Runner, best_of};
use std::env;
use std::io::{self, Error};

const USAGE: &str = "measure_gateway AVTP YARDSTICK STREAM PACKETS OUT OTHER AM824 AAF";

const ROUNDS: usize = 20;

fn main() -> io::Result<()> {
    let words: Vec<String> = env::args().skip(1).collect();
    let words: Vec<&str> = words.iter().map(String::as_str).collect();
    let [avtp, yardstick, stream, packets, out, other, am824, aaf] = words[..] else {
        return Err(Error::other(USAGE));
    };
    let count = packets.parse().map_err(Error::other)?;
    for (what, to, input) in [("`gateway`, PCM to AM824", "am824", aaf), ("`gateway`, AM824 to PCM", "aaf", am824)] {
        let mut runners = [
            Runner::new(what, avtp, &["gateway", "--to", to, stream, input, out], None),
            Runner::new("yardstick", yardstick, &[to, stream, input, other], None),
        ];
        best_of(ROUNDS, &mut runners)?;
        let [gateway, yardstick] = &runners;
        let row = Row {
            what,
            seconds: gateway.seconds,
            count,
            things: "packets",
            yardstick: Some(yardstick.seconds),
            kib: Some(gateway.kib),
        };
        row.print();
    }
    Ok(())
}
