//! `measure_orders ROUNDS AVTP PACKETS agree STREAM A B NAME A B ..`: runs `avtp agree` in turn, to nothing, on two captures of that
//! many packets in the usual order, A and B, and on pairs in other orders, each with a name.
//! `measure_orders ROUNDS AVTP PACKETS listen STREAM CLOCK A NAME A ..`: the same of `avtp listen --clock CLOCK`, on one capture.
//! Prints a row for each order, by processor time: the ratio is to the throughput in the usual order.

mod row;
mod runner;

use row::Row;
use runner::{Runner, best_of};
use std::env;
use std::io::{self, Error};

const USAGE: &str = "measure_orders ROUNDS AVTP PACKETS [agree STREAM A B NAME A B .. or listen STREAM CLOCK A NAME A ..]";

/// The program with these words and the captures of each order: first the usual one, then each with a name before it.
fn runners(avtp: &str, words: &[&str], captures: usize, orders: &[&str]) -> Vec<Runner> {
    let runner = |name: &str, order: &[&str]| Runner::new(name, avtp, &[words, order].concat(), None);
    let (usual, others) = orders.split_at(captures);
    let others = others.chunks_exact(captures + 1);
    let mut runners = vec![runner("usual", usual)];
    runners.extend(others.map(|order| runner(order[0], &order[1..])));
    runners
}

fn main() -> io::Result<()> {
    let words: Vec<String> = env::args().skip(1).collect();
    let words: Vec<&str> = words.iter().map(String::as_str).collect();
    let [rounds, avtp, packets, command, stream, rest @ ..] = words.as_slice() else {
        return Err(Error::other(USAGE));
    };
    let count = packets.parse().map_err(Error::other)?;
    let mut runners = match (*command, rest) {
        ("agree", [_, _, ..]) => runners(avtp, &["agree", stream], 2, rest),
        ("listen", [clock, orders @ ..]) if !orders.is_empty() => {
            runners(avtp, &["listen", "--clock", clock, stream], 1, orders)
        }
        _ => return Err(Error::other(USAGE)),
    };
    best_of(rounds.parse().map_err(Error::other)?, &mut runners)?;
    for slow in &runners[1..] {
        let row = Row {
            what: &format!("`{command}`, {}, beside the usual order", slow.name),
            seconds: slow.processor_seconds,
            count,
            things: "packets",
            yardstick: Some(runners[0].processor_seconds),
            kib: Some(slow.kib),
        };
        row.print();
    }
    Ok(())
}
