//! `measure_parts MEASURED ROUNDS`: runs `measured rounds` at several capacities in turn with its yardstick, and `measured lines`
//! over windows of several sizes, and prints a row for each, from the best runs.

mod row;
mod runner;

use row::Row;
use runner::{Runner, best_of};
use std::env;
use std::io::{self, Error};

/// How many items go through a ring: more through a larger one, so that each run takes about as long.
const ITEMS: [(&str, &str, f64); 4] = [
    ("1", "20000", 2e4),
    ("16", "200000", 2e5),
    ("64", "800000", 8e5),
    ("256", "2000000", 2e6),
];

const LOOK_UPS: f64 = 2e6;

const ROUNDS: usize = 20;

fn main() -> io::Result<()> {
    let words: Vec<String> = env::args().skip(1).collect();
    let [measured, yardstick] = &words[..] else {
        return Err(Error::other("measure_parts MEASURED ROUNDS"));
    };
    for (capacity, items, count) in ITEMS {
        let mut runners = [
            Runner::new("`measured rounds`", measured, &["rounds", capacity, items], None),
            Runner::new("its yardstick", yardstick, &[capacity, items], None),
        ];
        best_of(ROUNDS, &mut runners)?;
        let [ours, theirs] = &runners;
        let row = Row {
            what: &format!("rounds of a ring alone, capacity {capacity}"),
            seconds: ours.seconds,
            count,
            things: "items",
            yardstick: Some(theirs.seconds),
            kib: None,
        };
        row.print();
    }
    for timestamps in ["1", "180", "8191"] {
        let mut runners = [
            Runner::new("a full window", measured, &["lines", timestamps, "0"], None),
            Runner::new("look-ups", measured, &["lines", timestamps, "2000000"], None),
        ];
        best_of(ROUNDS, &mut runners)?;
        let [window, look_ups] = &runners;
        let row = Row {
            what: &format!("look-ups of a media clock alone, 64 packets of {timestamps} timestamps"),
            seconds: look_ups.seconds - window.seconds,
            count: LOOK_UPS,
            things: "look-ups",
            yardstick: None,
            kib: None,
        };
        row.print();
    }
    Ok(())
}
