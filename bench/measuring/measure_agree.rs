//! `measure_agree AVTP YARDSTICK PACKETS STREAM A B`: runs `avtp agree` in turn with its yardstick, to nothing, on captures of
//! PACKETS packets, of which one in 100 is lost. Prints rows of the best runs: by the wall clock, and by processor time.

mod row;
mod runner;

use row::Row;
use runner::{Runner, best_of};
use std::env;
use std::io::{self, Error};

const ROUNDS: usize = 20;

fn main() -> io::Result<()> {
    let words: Vec<String> = env::args().skip(1).collect();
    let words: Vec<&str> = words.iter().map(String::as_str).collect();
    let [avtp, yardstick, packets, stream, a, b] = words[..] else {
        return Err(Error::other("measure_agree AVTP YARDSTICK PACKETS STREAM A B"));
    };
    let count = packets.parse().map_err(Error::other)?;
    let mut runners = [
        Runner::new("`agree`", avtp, &["agree", stream, a, b], None),
        Runner::new("yardstick", yardstick, &[stream, a, b], None),
    ];
    best_of(ROUNDS, &mut runners)?;
    let [agree, yardstick] = &runners;
    for (how, seconds, beside) in [
        ("", agree.seconds, yardstick.seconds),
        (", by processor time", agree.processor_seconds, yardstick.processor_seconds),
    ] {
        let row = Row {
            what: &format!("`agree` of two captures that each lost 1 %{how}"),
            seconds,
            count,
            things: "packets",
            yardstick: Some(beside),
            kib: Some(agree.kib),
        };
        row.print();
    }
    Ok(())
}
