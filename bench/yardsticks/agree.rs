//! The yardstick of `bench/run` for `agree`: `agree STREAM A B` prints what `avtp agree STREAM A B` prints of classic captures,
//! byte for byte. It is written as tightly as an unverified program can be, in one thread. It has no options, and expects files
//! that can be read.

#![allow(dead_code)] // The modules are used in part.

mod aaf;
mod batches;
mod pcap;
mod present;
mod receive;
mod stream;
mod text;

use aaf::RATES;
use batches::{Batch, SECOND};
use pcap::Refusal;
use receive::{Receiver, Shown};
use std::collections::VecDeque;
use std::env;
use std::fs::File;
use std::io;
use std::process::ExitCode;
use text::{Line, Text};

/// A batch is paired with one that is at most this many places before it in merged order.
const WINDOW: u64 = 512;

/// Two batches of the same packet are apart by at most this many times the time of A's.
const REACH: u64 = 64;

/// One of two captures, with its next batch and those that wait for a partner, each with its place in merged order.
struct Side {
    receiver: Receiver,
    next: Option<Batch>,
    waiting: VecDeque<(u64, Batch)>,
    batches: u64,
}

impl Side {
    fn open(stream: u64, path: &str) -> io::Result<Self> {
        Ok(Side {
            receiver: Receiver::new(stream, File::open(path)?),
            next: None,
            waiting: VecDeque::with_capacity(WINDOW as usize),
            batches: 0,
        })
    }

    /// Goes on to the next batch, or to the end.
    #[inline(always)]
    fn advance(&mut self) -> io::Result<()> {
        while self.next.is_none() {
            match self.receiver.next()? {
                Some(Shown::Present(batch)) => {
                    self.batches += 1;
                    self.next = Some(batch);
                }
                Some(Shown::Flag { .. }) => {}
                None => break,
            }
        }
        Ok(())
    }

    #[inline(always)]
    fn reuse(&mut self, batch: Batch) {
        self.receiver.reuse(Shown::Present(batch));
    }

    /// The first batch that waits and passes a test.
    #[inline(always)]
    fn take_first(&mut self, passes: impl Fn(&Batch) -> bool) -> Option<Batch> {
        let i = self.waiting.iter().position(|(_, batch)| passes(batch))?;
        let (_, batch) = if i == 0 { self.waiting.pop_front() } else { self.waiting.remove(i) }?;
        Some(batch)
    }

    /// Drops the first batch if it waited for all of the window.
    #[inline(always)]
    fn drop_passed(&mut self, place: u64) {
        if let Some((_, batch)) = self.waiting.pop_front_if(|(first, _)| place - *first > WINDOW) {
            self.reuse(batch);
        }
    }
}

fn count(batch: &Batch) -> usize {
    batch.bytes.len() / batch.size
}

fn rate(batch: &Batch) -> u64 {
    u64::from(RATES[usize::from(batch.nsr)])
}

fn instant(batch: &Batch, j: usize) -> i64 {
    batch.instant + ((u64::from(batch.rest) + j as u64 * SECOND) / rate(batch)) as i64
}

/// Whether a batch of A and one of B may be of the same packet.
#[inline(always)]
fn fits(a: &Batch, b: &Batch) -> bool {
    let reach = || u128::from(REACH * count(a) as u64) * u128::from(SECOND);
    a.seq == b.seq && (a.instant == b.instant || u128::from(a.instant.abs_diff(b.instant)) * u128::from(rate(a)) <= reach())
}

/// Prints how two batches of A and B differ, if they do. Returns whether they do.
#[inline(always)]
fn compare(text: &mut Text, a: &Batch, b: &Batch) -> io::Result<bool> {
    let is_same = a.instant == b.instant && a.rest == b.rest && a.nsr == b.nsr && a.size == b.size && a.bytes == b.bytes;
    if is_same { Ok(false) } else { compare_samples(text, a, b) }
}

#[cold]
#[inline(never)]
fn compare_samples(text: &mut Text, a: &Batch, b: &Batch) -> io::Result<bool> {
    let mut print = |end: &dyn Fn(&mut Line)| {
        let mut line = text.line(Line::ROOM)?;
        line.number(b"differ frame ", a.frame);
        line.number(b" ", b.frame);
        line.number(b" seq ", a.seq.into());
        end(&mut line);
        line.end();
        Ok(true)
    };
    if count(a) != count(b) {
        return print(&|line| {
            line.number(b" count ", count(a) as u64);
            line.number(b" ", count(b) as u64);
        });
    }
    for j in 0..count(a) {
        let (at_a, at_b) = (instant(a, j), instant(b, j));
        if at_a != at_b {
            return print(&|line| {
                line.number(b" sample ", j as u64);
                line.number(b" at ", at_a as u64);
                line.number(b" ", at_b as u64);
            });
        }
        if a.bytes[j * a.size..][..a.size] != b.bytes[j * b.size..][..b.size] {
            return print(&|line| {
                line.number(b" sample ", j as u64);
                line.add(b" bytes");
            });
        }
    }
    Ok(false)
}

#[derive(Default)]
struct Found {
    matched: u64,
    differ: u64,
}

/// Takes the next batch of `own` in merged order: it is paired with one of `other`, or waits.
#[inline(always)]
fn step<const IS_A: bool>(own: &mut Side, other: &mut Side, place: u64, found: &mut Found, text: &mut Text) -> io::Result<()> {
    let Some(x) = own.next.take() else { return Ok(()) };
    let partner = other.take_first(|y| if IS_A { fits(&x, y) } else { fits(y, &x) });
    own.drop_passed(place + 1);
    other.drop_passed(place + 1);
    let Some(y) = partner else {
        own.waiting.push_back((place, x));
        return Ok(());
    };
    found.matched += 1;
    let differs = if IS_A { compare(text, &x, &y) } else { compare(text, &y, &x) };
    found.differ += u64::from(differs?);
    own.reuse(x);
    other.reuse(y);
    Ok(())
}

/// Ends the text according to how both readings ended, and returns the status.
fn print_end(text: &mut Text, a: Side, b: Side, found: Found) -> io::Result<ExitCode> {
    let only = [a.batches - found.matched, b.batches - found.matched];
    let refusals: Vec<Refusal> = [a, b].into_iter().filter_map(|side| side.receiver.end().err()).collect();
    let status = match (refusals.is_empty(), found.differ) {
        (false, _) => 3,
        (true, 0) => 0,
        (true, _) => 1,
    };
    if refusals.is_empty() {
        let mut line = text.line(Line::ROOM)?;
        line.number(b"end matched ", found.matched);
        line.number(b" only ", only[0]);
        line.number(b" ", only[1]);
        line.number(b" differ ", found.differ);
        line.end();
    }
    for refusal in refusals {
        let mut line = text.line(Line::ROOM)?;
        line.refusal(b"capture refused: ", refusal);
        line.end();
    }
    text.flush()?;
    Ok(ExitCode::from(status))
}

fn main() -> io::Result<ExitCode> {
    let words: Vec<String> = env::args().skip(1).collect();
    let [stream, a, b] = words.as_slice() else {
        return Err(io::Error::other("agree STREAM A B"));
    };
    let stream = u64::from_str_radix(stream, 16).map_err(io::Error::other)?;
    let (mut a, mut b) = (Side::open(stream, a)?, Side::open(stream, b)?);
    let mut text = Text::over(io::stdout());
    let mut found = Found::default();
    for place in 0.. {
        a.advance()?;
        b.advance()?;
        match (&a.next, &b.next) {
            (None, None) => break,
            (Some(x), Some(y)) if y.instant < x.instant => step::<false>(&mut b, &mut a, place, &mut found, &mut text)?,
            (Some(_), _) => step::<true>(&mut a, &mut b, place, &mut found, &mut text)?,
            (None, _) => step::<false>(&mut b, &mut a, place, &mut found, &mut text)?,
        }
    }
    print_end(&mut text, a, b, found)
}
