//! The yardstick of `bench/run` for `talk`: `copy IN OUT` reads a file whole, as `avtp talk` does, and writes it again in
//! pieces of 65,536 bytes.

use std::env;
use std::fs::{self, File};
use std::io::{self, Error, Write};

const PIECE: usize = 65_536;

fn main() -> io::Result<()> {
    let words: Vec<String> = env::args().skip(1).collect();
    let [input, output] = &words[..] else {
        return Err(Error::other("copy IN OUT"));
    };
    let bytes = fs::read(input)?;
    let mut out = File::create(output)?;
    for piece in bytes.chunks(PIECE) {
        out.write_all(piece)?;
    }
    Ok(())
}
