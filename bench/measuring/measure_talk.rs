//! `measure_talk AVTP YARDSTICK COPY SAMPLES CAPTURE OTHER PACKETS`: runs `avtp talk`, which makes CAPTURE of the file SAMPLES,
//! in turn with its yardstick, which makes OTHER of it, and with a plain copy of the capture to OTHER. Prints rows of the best
//! runs: by the wall clock, by processor time, and compared with the copy.

mod row;
mod runner;

use row::Row;
use runner::{Runner, best_of};
use std::env;
use std::io::{self, Error};

const USAGE: &str = "measure_talk AVTP YARDSTICK COPY SAMPLES CAPTURE OTHER PACKETS";

const ROUNDS: usize = 20;

fn main() -> io::Result<()> {
    let words: Vec<String> = env::args().skip(1).collect();
    let words: Vec<&str> = words.iter().map(String::as_str).collect();
    let [avtp, yardstick, copy, samples, capture, other, packets] = words[..] else {
        return Err(Error::other(USAGE));
    };
    let count = packets.parse().map_err(Error::other)?;
    let mut runners = [Runner::new("`talk`", avtp, &["talk", samples, capture], None)];
    // The capture has to be there before it can be copied.
    best_of(1, &mut runners)?;
    let [talk] = runners;
    let mut runners = [
        talk,
        Runner::new("yardstick", yardstick, &[samples, other], None),
        Runner::new("a copy", copy, &[capture, other], None),
    ];
    best_of(ROUNDS, &mut runners)?;
    let [talk, yardstick, copy] = &runners;
    for (what, seconds, beside) in [
        ("`talk`, to a file", talk.seconds, yardstick.seconds),
        ("`talk`, to a file, by processor time", talk.processor_seconds, yardstick.processor_seconds),
        ("`talk`, to a file, beside a copy of its capture", talk.seconds, copy.seconds),
    ] {
        let row = Row {
            what,
            seconds,
            count,
            things: "packets",
            yardstick: Some(beside),
            kib: Some(talk.kib),
        };
        row.print();
    }
    Ok(())
}
