//! Runs a mode of `measured` and its yardstick in turn. Both say how many packets they presented, or how many bytes they
//! printed, and in how many nanoseconds, so that making the packets is not measured.

use std::io::{self, Error};
use std::process::Command;

const ROUNDS: usize = 20;

/// A program, and the mode that it is asked for, if it has several.
#[derive(Clone, Copy)]
pub struct Timed<'a> {
    pub program: &'a str,
    pub mode: Option<&'a str>,
}

impl Timed<'_> {
    /// Runs once, and tells how many packets are presented or bytes printed, and in how many nanoseconds.
    fn run(&self, words: &[&str]) -> io::Result<(u64, u64)> {
        let output = Command::new(self.program).args(self.mode).args(words).output()?;
        let text = String::from_utf8_lossy(&output.stdout);
        let mut numbers = text.split_whitespace().map(str::parse);
        let (Some(Ok(presented)), Some(Ok(nanoseconds))) = (numbers.next(), numbers.next()) else {
            return Err(Error::other(format!("{} failed", self.program)));
        };
        Ok((presented, nanoseconds))
    }
}

/// The best time of each of two programs, in nanoseconds, and how many packets both present, or how many bytes both print.
pub fn best_of_both(programs: [Timed; 2], words: &[&str]) -> io::Result<([f64; 2], u64)> {
    let mut best = [u64::MAX; 2];
    let mut presented = [0; 2];
    for _ in 0..ROUNDS {
        for (n, program) in programs.iter().enumerate() {
            let (count, nanoseconds) = program.run(words)?;
            presented[n] = count;
            best[n] = best[n].min(nanoseconds);
        }
        if presented[0] != presented[1] {
            let [ours, theirs] = presented;
            return Err(Error::other(format!("{words:?}: {ours} presented, and not {theirs}")));
        }
    }
    Ok((best.map(|nanoseconds| nanoseconds as f64), presented[0]))
}
