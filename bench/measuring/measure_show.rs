//! `measure_show AVTP YARDSTICK PACKETS TEXT TSHARK CAPTURE`: runs `avtp show` and its yardstick in turn, to nothing and to a
//! file that each of them leaves in TEXT, and tshark once if TSHARK is not empty. Prints a row for each, from its best run.

mod row;
mod runner;

use row::Row;
use runner::{Runner, best_of};
use std::env;
use std::io::{self, Error};

const USAGE: &str = "measure_show AVTP YARDSTICK PACKETS TEXT TSHARK CAPTURE";

const ROUNDS: usize = 20;

/// The fields that `avtp show` prints, as far as tshark has them.
const TSHARK_FIELDS: [&str; 14] = [
    "frame.number",
    "frame.time_epoch",
    "ieee1722.subtype",
    "aaf.stream_id",
    "aaf.seqnum",
    "aaf.avtp_timestamp",
    "aaf.tvfield",
    "aaf.tufield",
    "aaf.mrfield",
    "aaf.format_info",
    "aaf.nominal_sample_rate",
    "aaf.channels_per_frame",
    "aaf.bit_depth",
    "aaf.stream_data_len",
];

fn print(runner: &Runner, packets: f64, yardstick: Option<f64>) {
    let row = Row {
        what: &runner.name,
        seconds: runner.seconds,
        count: packets,
        things: "packets",
        yardstick,
        kib: Some(runner.kib),
    };
    row.print();
}

/// Runs tshark once over the capture, for the fields that `avtp show` prints.
fn run_tshark(tshark: &str, capture: &str) -> io::Result<Runner> {
    let mut words = vec!["-n", "-r", capture, "-T", "fields"];
    words.extend(TSHARK_FIELDS.iter().flat_map(|field| ["-e", field]));
    let mut runner = Runner::new("`tshark -T fields`, 14 fields, to nothing", tshark, &words, None);
    runner.run()?;
    Ok(runner)
}

fn main() -> io::Result<()> {
    let words: Vec<String> = env::args().skip(1).collect();
    let words: Vec<&str> = words.iter().map(String::as_str).collect();
    let [avtp, yardstick, packets, text, tshark, capture] = words[..] else {
        return Err(Error::other(USAGE));
    };
    let packets: f64 = packets.parse().map_err(Error::other)?;
    let asked = ["show", capture];
    let mut runners = [
        Runner::new("`show`, to nothing", avtp, &asked, None),
        Runner::new("yardstick, to nothing", yardstick, &[capture], None),
        Runner::new("`show`, to a file", avtp, &asked, Some(text)),
        Runner::new("yardstick, to a file", yardstick, &[capture], Some(text)),
    ];
    best_of(ROUNDS, &mut runners)?;
    for pair in runners.chunks_exact(2) {
        print(&pair[0], packets, Some(pair[1].seconds));
    }
    if !tshark.is_empty() {
        print(&run_tshark(tshark, capture)?, packets, None);
    }
    Ok(())
}
