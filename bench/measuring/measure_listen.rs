//! `measure_listen AVTP TWO ONE PACKETS TEXT STREAM CAPTURE`: runs `avtp listen` with rings of 64 and of 256 items in turn with its
//! yardsticks, TWO of two threads that are joined in rounds and ONE of one thread. They print to nothing, and to the file TEXT.
//! Prints rows of `listen` beside each yardstick, for the best runs.

mod row;
mod runner;

use row::Row;
use runner::{Runner, best_of};
use std::env;
use std::io::{self, Error};

const USAGE: &str = "measure_listen AVTP TWO ONE PACKETS TEXT STREAM CAPTURE";

const ROUNDS: usize = 20;

const RINGS: [&str; 2] = ["64", "256"];

/// The programs, the stream that they listen to, and the capture.
struct Asked<'a> {
    avtp: &'a str,
    two: &'a str,
    one: &'a str,
    stream: &'a str,
    capture: &'a str,
}

impl Asked<'_> {
    /// The program and its yardstick of two threads, with each ring, and then the yardstick of one thread.
    fn runners(&self, output: Option<&str>) -> Vec<Runner> {
        let to = if output.is_some() {
            "a file"
        } else {
            "nothing"
        };
        let mut runners = Vec::new();
        for ring in RINGS {
            let words = ["listen", "--ring", ring, self.stream, self.capture];
            runners.extend([
                Runner::new(
                    &format!("`listen --ring {ring}`, to {to}"),
                    self.avtp,
                    &words,
                    output,
                ),
                Runner::new(
                    &format!("two threads, ring of {ring}, to {to}"),
                    self.two,
                    &words[1..],
                    output,
                ),
            ]);
        }
        let words = [self.stream, self.capture];
        runners.push(Runner::new(
            &format!("one thread, to {to}"),
            self.one,
            &words,
            output,
        ));
        runners
    }
}

/// Rows of `listen` to one sink: with each ring beside the yardstick of two threads, and then of one.
fn print_rows(runners: &[Runner], packets: f64) {
    let [pairs @ .., one] = runners else { return };
    for pair in pairs.chunks_exact(2) {
        for (beside, yardstick) in [("two threads", &pair[1]), ("one thread", one)] {
            let row = Row {
                what: &format!("{}, beside {beside}", pair[0].name),
                seconds: pair[0].seconds,
                count: packets,
                things: "packets",
                yardstick: Some(yardstick.seconds),
                kib: Some(pair[0].kib),
            };
            row.print();
        }
    }
}

fn main() -> io::Result<()> {
    let words: Vec<String> = env::args().skip(1).collect();
    let words: Vec<&str> = words.iter().map(String::as_str).collect();
    let [avtp, two, one, packets, text, stream, capture] = words[..] else {
        return Err(Error::other(USAGE));
    };
    let packets = packets.parse().map_err(Error::other)?;
    let asked = Asked {
        avtp,
        two,
        one,
        stream,
        capture,
    };
    let mut to_nothing = asked.runners(None);
    let mut to_a_file = asked.runners(Some(text));
    for _ in 0..ROUNDS {
        best_of(1, &mut to_nothing)?;
        best_of(1, &mut to_a_file)?;
    }
    print_rows(&to_nothing, packets);
    print_rows(&to_a_file, packets);
    Ok(())
}
