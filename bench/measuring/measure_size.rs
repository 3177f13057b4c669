//! `measure_size ROUNDS AVTP SIZE PACKETS COMMAND WORD ..`: runs `avtp COMMAND WORD ..`, to nothing, on captures of that size and of that
//! many packets. Prints a row of the best run, with the largest memory of all. The programs are always at the same addresses: where
//! they are would change how many of their pages the system maps beside those that are used.

mod row;
mod runner;

use row::Row;
use runner::{Runner, best_of};
use std::env;
use std::io::{self, Error};

/// The programs that are started are at the same addresses in each run.
const ADDR_NO_RANDOMIZE: u64 = 0x0004_0000;

unsafe extern "C" {
    fn personality(persona: u64) -> i32;
}

fn main() -> io::Result<()> {
    let words: Vec<String> = env::args().skip(1).collect();
    let words: Vec<&str> = words.iter().map(String::as_str).collect();
    let [rounds, avtp, size, packets, asked @ ..] = words.as_slice() else {
        return Err(Error::other("measure_size ROUNDS AVTP SIZE PACKETS COMMAND WORD .."));
    };
    // Sound, as it changes no address of this process.
    unsafe { personality(ADDR_NO_RANDOMIZE) };
    let what = format!("`{}`, {size}", asked[0]);
    let mut runners = [Runner::new(&what, avtp, asked, None)];
    best_of(rounds.parse().map_err(Error::other)?, &mut runners)?;
    let row = Row {
        what: &what,
        seconds: runners[0].seconds,
        count: packets.parse().map_err(Error::other)?,
        things: "packets",
        yardstick: None,
        kib: Some(runners[0].kib),
    };
    row.print();
    Ok(())
}
