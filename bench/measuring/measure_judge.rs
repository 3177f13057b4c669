//! `measure_judge MEASURED YARDSTICK`: runs `measured judge` and its yardstick in turn, on packets in several orders, and prints
//! a row for each order, from the best runs.

mod row;
mod timed;

use row::Row;
use std::env;
use std::io::{self, Error};
use timed::{Timed, best_of_both};

const ITEMS: &str = "400000";

/// A name, and the words that ask for it: the order, how many packets wait at once, the look-ahead, and whether there is a
/// clock. The first is the usual one.
const CASES: [(&str, [&str; 4]); 9] = [
    ("in order, 16 wait", ["rising", "16", "0", "none"]),
    ("in order, 16 wait, look 64", ["rising", "16", "64", "none"]),
    ("in order, 16 wait, with a clock", ["rising", "16", "0", "clock"]),
    ("in order, 16 wait, look 64, with a clock", ["rising", "16", "64", "clock"]),
    ("256 at one instant", ["equal", "256", "0", "none"]),
    ("in order, 65,536 wait", ["rising", "65536", "0", "none"]),
    ("falling, 65,536 wait", ["falling", "65536", "0", "none"]),
    ("random, 65,536 wait", ["random", "65536", "0", "none"]),
    ("into the middle, 65,536 wait", ["middle", "65536", "0", "none"]),
];

fn main() -> io::Result<()> {
    let words: Vec<String> = env::args().skip(1).collect();
    let [measured, yardstick] = &words[..] else {
        return Err(Error::other("measure_judge MEASURED YARDSTICK"));
    };
    let judges = [(measured, Some("judge")), (yardstick, None)].map(|(program, mode)| Timed { program, mode });
    for (name, [order, waiting, look, clock]) in CASES {
        let (best, _) = best_of_both(judges, &[order, waiting, look, clock, ITEMS])?;
        let [ours, theirs] = best.map(|nanoseconds| nanoseconds / 1e9);
        let row = Row {
            what: &format!("a judge alone, {name}"),
            seconds: ours,
            count: ITEMS.parse().map_err(Error::other)?,
            things: "packets",
            yardstick: Some(theirs),
            kib: None,
        };
        row.print();
    }
    Ok(())
}
