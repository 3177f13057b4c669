//! The yardstick of `bench/run` for `listen`: `listen STREAM FILE` prints what `avtp listen STREAM FILE` prints of a classic
//! capture, byte for byte. It is written as tightly as an unverified program can be, in one thread. It has no options.

mod aaf;
mod batches;
mod pcap;
mod present;
mod receive;
mod stream;
mod text;

use present::Presenter;
use receive::Receiver;
use std::env;
use std::fs::File;
use std::io;
use std::process::ExitCode;

fn main() -> io::Result<ExitCode> {
    let words: Vec<String> = env::args().skip(1).collect();
    let [stream, path] = words.as_slice() else {
        return Err(io::Error::other("listen STREAM FILE"));
    };
    let stream = u64::from_str_radix(stream, 16).map_err(io::Error::other)?;
    let mut presenter = Presenter::begin(path)?;
    let mut receiver = Receiver::new(stream, File::open(path)?);
    while let Some(shown) = receiver.next()? {
        shown.present_to(&mut presenter)?;
        receiver.reuse(shown);
    }
    presenter.end(receiver.end())
}
