//! The yardstick of `bench/run` for the rounds of a ring: `rounds CAPACITY ITEMS` hands items from one thread to another, as
//! `measured rounds` does, without contracts. In each round two threads are joined: one pushes items while it finds a free slot,
//! at most as many as the ring holds, and the other takes at most as many.

mod join;
mod ring;

use join::join;
use ring::Ring;
use std::env;

/// An item as the listener shows it: a flag, or a batch with its line and its bytes.
enum Shown {
    Flag {
        frame: u64,
        seq: u8,
    },
    #[allow(dead_code)]
    Present {
        line: [u64; 3],
        from: i64,
        count: u32,
        frame: u64,
        bytes: Vec<u8>,
    },
}

fn main() {
    let words: Vec<usize> = env::args()
        .skip(1)
        .map(|word| word.parse().expect("a number"))
        .collect();
    let [capacity, items] = words[..] else {
        panic!("rounds CAPACITY ITEMS");
    };
    let ring = Ring::new(capacity);
    let (mut given, mut hand) = (0, None);
    let (mut presented, mut shown) = (0_u64, None);
    while given < items || hand.is_some() || !ring.is_empty() {
        let give = || {
            for _ in 0..ring.capacity() {
                if hand.is_none() && given < items {
                    given += 1;
                    hand = Some(Shown::Flag {
                        frame: given as u64,
                        seq: 0,
                    });
                }
                if hand.is_none() || !ring.push(&mut hand) {
                    break;
                }
                hand = None;
            }
        };
        let take = || {
            for _ in 0..ring.capacity() {
                if !ring.pop(&mut shown) {
                    break;
                }
                presented += match shown {
                    Some(Shown::Flag { frame, seq }) => u64::from(frame > 0 && seq == 0),
                    _ => 1,
                };
            }
        };
        join(give, take);
    }
    println!("{presented}");
}
