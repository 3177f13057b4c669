//! The yardstick of `bench/run` for `listen` that has the design of the program: `listen_rounds --ring ITEMS STREAM FILE` prints
//! what `listen STREAM FILE` prints, in rounds. Each round joins two threads. A new one receives: it pushes items into a ring
//! while it finds a free slot, at most as many as the ring holds. The other presents: it pops items that it finds, at most as
//! many as the ring holds. The rounds go on until the receiver has ended and nothing waits.

mod aaf;
mod items;
mod join;
mod judging;
mod pcap;
mod present;
mod ring;
mod schedule;
mod stream;
mod text;

use join::join;
use judging::{Receiver, present};
use present::Presenter;
use ring::Ring;
use schedule::Shown;
use std::env;
use std::fs::File;
use std::io;
use std::process::ExitCode;

/// The receiver, and the item that found no free slot.
struct Front {
    receiver: Receiver,
    hand: Option<Shown>,
    has_ended: bool,
}

impl Front {
    fn take_turn(&mut self, ring: &Ring<Option<Shown>>) -> io::Result<()> {
        for _ in 0..ring.capacity() {
            if self.hand.is_none() {
                self.hand = self.receiver.next()?;
                self.has_ended = self.hand.is_none();
            }
            if self.has_ended || !ring.push(&mut self.hand) {
                break;
            }
        }
        Ok(())
    }
}

struct Back {
    presenter: Presenter,
}

impl Back {
    fn take_turn(&mut self, ring: &Ring<Option<Shown>>) -> io::Result<()> {
        for _ in 0..ring.capacity() {
            let mut shown = None;
            if !ring.pop(&mut shown) {
                break;
            }
            if let Some(shown) = shown {
                present(&mut self.presenter, &shown)?;
            }
        }
        Ok(())
    }
}

fn main() -> io::Result<ExitCode> {
    let words: Vec<String> = env::args().skip(1).collect();
    let ["--ring", items, stream, path] = words.iter().map(String::as_str).collect::<Vec<_>>()[..]
    else {
        return Err(io::Error::other("listen_rounds --ring ITEMS STREAM FILE"));
    };
    let ring = Ring::new(items.parse().map_err(io::Error::other)?);
    let stream = u64::from_str_radix(stream, 16).map_err(io::Error::other)?;
    let mut back = Back {
        presenter: Presenter::begin(path)?,
    };
    let mut front = Front {
        receiver: Receiver::new(stream, File::open(path)?),
        hand: None,
        has_ended: false,
    };
    while !front.has_ended || !ring.is_empty() {
        let (received, presented) = join(|| front.take_turn(&ring), || back.take_turn(&ring));
        received?;
        presented?;
    }
    back.presenter.end(front.receiver.end())
}
