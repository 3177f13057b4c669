//! `measure_pcapng AVTP PACKETS CLASSIC PCAPNG`: runs `avtp show` in turn, to nothing, on captures of the same packets, one
//! classic and one pcapng. Prints a row that compares the second with the first, from the best runs.

mod row;
mod runner;

use row::Row;
use runner::{Runner, best_of};
use std::env;
use std::io::{self, Error};

const ROUNDS: usize = 20;

fn main() -> io::Result<()> {
    let words: Vec<String> = env::args().skip(1).collect();
    let [avtp, packets, classic, pcapng] = words.as_slice() else {
        return Err(Error::other("measure_pcapng AVTP PACKETS CLASSIC PCAPNG"));
    };
    let mut runners = [
        Runner::new("classic", avtp, &["show", classic], None),
        Runner::new("pcapng", avtp, &["show", pcapng], None),
    ];
    best_of(ROUNDS, &mut runners)?;
    let [classic, pcapng] = &runners;
    let row = Row {
        what: "`show` of pcapng, to nothing, beside a classic capture",
        seconds: pcapng.seconds,
        count: packets.parse().map_err(Error::other)?,
        things: "packets",
        yardstick: Some(classic.seconds),
        kib: Some(pcapng.kib),
    };
    row.print();
    Ok(())
}
