//! `measure_check AVTP YARDSTICK REPORT PACKETS [STREAMS CAPTURE] ..`: runs `avtp check`, its yardstick and `avtp-report` in
//! turn, to nothing, on captures of this many packets and streams, which have no findings. Prints a row that compares `check`
//! with its yardstick, and one that compares the report with `check`, from their best runs.

mod row;
mod runner;

use row::Row;
use runner::{Runner, best_of};
use std::env;
use std::io::{self, Error};

const ROUNDS: usize = 20;

fn main() -> io::Result<()> {
    let words: Vec<String> = env::args().skip(1).collect();
    let [avtp, yardstick, report, packets, captures @ ..] = words.as_slice() else {
        return Err(Error::other("measure_check AVTP YARDSTICK REPORT PACKETS [STREAMS CAPTURE] .."));
    };
    let count: f64 = packets.parse().map_err(Error::other)?;
    for pair in captures.chunks_exact(2) {
        let streams = &pair[0];
        let mut runners = [
            Runner::new(&format!("`check`, streams: {streams}"), avtp, &["check", &pair[1]], None),
            Runner::new("yardstick", yardstick, &[&pair[1]], None),
            Runner::new(&format!("`avtp-report`, streams: {streams}, beside `check`"), report, &[&pair[1]], None),
        ];
        best_of(ROUNDS, &mut runners)?;
        let [check, yardstick, report] = &runners;
        for (runner, beside) in [(check, yardstick), (report, check)] {
            let row = Row {
                what: &runner.name,
                seconds: runner.seconds,
                count,
                things: "packets",
                yardstick: Some(beside.seconds),
                kib: Some(runner.kib),
            };
            row.print();
        }
    }
    Ok(())
}
