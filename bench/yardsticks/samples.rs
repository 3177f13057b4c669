//! The yardstick of `bench/run` for the text of samples: `samples BATCHES TIMES` makes the batches that `measured samples` makes
//! of these words, six samples of four bytes each, and prints them as often to a writer that keeps nothing, by the lines of
//! `listen.rs`. It prints how many bytes of text that is, and in how many nanoseconds, once the batches were made.

#![allow(dead_code)] // The modules are used in part.

mod aaf;
mod batches;
mod pcap;
mod present;
mod receive;
mod stream;
mod text;

use batches::Batch;
use present::Presenter;
use receive::Shown;
use std::env;
use std::io::{self, Error, Write};
use std::time::Instant;

/// Takes all and keeps nothing, and counts the bytes.
struct Counter(u64);

impl Write for Counter {
    fn write(&mut self, piece: &[u8]) -> io::Result<usize> {
        self.0 += piece.len() as u64;
        Ok(piece.len())
    }

    fn flush(&mut self) -> io::Result<()> {
        Ok(())
    }
}

/// The samples of packet n: 16 packets wait at once.
fn batch(n: u64) -> Shown {
    Shown::Present(Batch {
        instant: (1_000_000_000 + (n + 16) * 125_000 - 1) as i64,
        rest: 0,
        nsr: 5,
        seq: n as u8,
        frame: n + 1,
        size: 4,
        bytes: vec![n as u8; 24],
    })
}

fn main() -> io::Result<()> {
    let words: Vec<String> = env::args().skip(1).collect();
    let [batches, times] = &words[..] else {
        return Err(Error::other("samples BATCHES TIMES"));
    };
    let batches: u64 = batches.parse().map_err(Error::other)?;
    let times: u64 = times.parse().map_err(Error::other)?;
    let batches: Vec<Shown> = (0..batches).map(batch).collect();
    let mut presenter = Presenter::over(Counter(0));
    let start = Instant::now();
    for _ in 0..times {
        for shown in &batches {
            shown.present_to(&mut presenter)?;
        }
    }
    let Counter(bytes) = presenter.flushed()?;
    println!("{bytes} {}", start.elapsed().as_nanos());
    Ok(())
}
