//! `measure_samples MEASURED YARDSTICK`: runs `measured samples` and its yardstick in turn, and prints a row from the best runs.
//! Both print equally many bytes.

mod row;
mod timed;

use row::Row;
use std::env;
use std::io::{self, Error};
use timed::{Timed, best_of_both};

/// How many batches, and how often all of them are printed. A batch has six samples.
const BATCHES: &str = "1000";
const TIMES: &str = "400";
const SAMPLES: f64 = 6.0 * 1000.0 * 400.0;

fn main() -> io::Result<()> {
    let words: Vec<String> = env::args().skip(1).collect();
    let [measured, yardstick] = &words[..] else {
        return Err(Error::other("measure_samples MEASURED YARDSTICK"));
    };
    let printers = [(measured, Some("samples")), (yardstick, None)].map(|(program, mode)| Timed { program, mode });
    let (best, _) = best_of_both(printers, &[BATCHES, TIMES])?;
    let [ours, theirs] = best.map(|nanoseconds| nanoseconds / 1e9);
    let row = Row {
        what: "text of samples alone",
        seconds: ours,
        count: SAMPLES,
        things: "samples",
        yardstick: Some(theirs),
        kib: None,
    };
    row.print();
    Ok(())
}
