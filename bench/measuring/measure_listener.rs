//! `measure_listener MEASURED YARDSTICK PACKETS`: runs `measured listener` and its yardstick in turn, on captures of PACKETS
//! packets: of one stream, and of a hundred streams of which it hears one. Prints a row for each, from the best runs.

mod row;
mod timed;

use row::Row;
use std::env;
use std::io::{self, Error};
use timed::{Timed, best_of_both};

fn main() -> io::Result<()> {
    let words: Vec<String> = env::args().skip(1).collect();
    let [measured, yardstick, packets] = &words[..] else {
        return Err(Error::other("measure_listener MEASURED YARDSTICK PACKETS"));
    };
    let listeners = [(measured, Some("listener")), (yardstick, None)].map(|(program, mode)| Timed { program, mode });
    for (name, streams) in [("one stream", "1"), ("one stream of a hundred", "100")] {
        let (best, _) = best_of_both(listeners, &[streams, packets])?;
        let [ours, theirs] = best.map(|nanoseconds| nanoseconds / 1e9);
        let row = Row {
            what: &format!("a listener alone, from memory, {name}"),
            seconds: ours,
            count: packets.parse().map_err(Error::other)?,
            things: "packets",
            yardstick: Some(theirs),
            kib: None,
        };
        row.print();
    }
    Ok(())
}
