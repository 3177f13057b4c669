//! The yardstick of `bench/run` for a judge: `judge ORDER WAITING LOOK CLOCK ITEMS` makes the entries that `measured judge` makes
//! of these words, and judges them by the same design, without contracts. It prints how many items are presented, and in how
//! many nanoseconds all were judged, once the entries were made.

mod schedule;

use schedule::{ClockRow, HeadRule, Item, Judge, Packet, Plan, Points, drain};
use std::env;
use std::time::Instant;

enum Entry {
    Item(Item),
    Clock { arrival: i64, row: ClockRow },
}

#[derive(Clone, Copy)]
enum Order {
    Rising,
    Falling,
    Random,
    Middle,
    Equal,
}

struct Stream {
    order: Order,
    waiting: u32,
    clock: bool,
}

/// A permutation of the 16-bit numbers without apparent order.
fn scrambled(n: u32) -> u32 {
    let first = (n * 40_503) % 65_536;
    let second = ((first ^ (first >> 8)) * 46_387) % 65_536;
    second ^ (second >> 7)
}

impl Stream {
    /// The time between two arrivals, in nanoseconds.
    fn step(&self) -> u32 {
        if self.waiting > 4_096 { 1_000 } else { 125_000 }
    }

    /// The place of item n, by instant, among the `waiting` items of its group.
    fn place(&self, n: u32) -> u32 {
        let i = n % self.waiting;
        match self.order {
            Order::Rising => i,
            Order::Falling => self.waiting - 1 - i,
            Order::Random => scrambled(i) % self.waiting,
            Order::Middle if i % 2 == 0 => i / 2,
            Order::Middle => self.waiting - 1 - i / 2,
            Order::Equal => 0,
        }
    }

    fn arrival(&self, n: u32) -> u64 {
        1_000_000_000 + u64::from(n) * u64::from(self.step())
    }

    /// The items of each group are due while those of the next group come.
    fn instant(&self, n: u32) -> u64 {
        let first = (n / self.waiting + 1) * self.waiting;
        self.arrival(first + self.place(n)) - 1
    }

    fn item(&self, n: u32) -> Item {
        Item::Packet(Packet {
            frame: u64::from(n) + 1,
            arrival: self.arrival(n) as i64,
            seq: n as u8,
            mr: false,
            tu: false,
            stamp: Some(self.instant(n) as u32),
            rule: HeadRule::Own,
            rate: 48_000,
            count: 6,
            bytes: vec![n as u8; 24],
        })
    }

    /// A packet of the clock, whose timestamp is the instant of item n.
    fn clock(&self, n: u32) -> Entry {
        Entry::Clock {
            arrival: self.arrival(n) as i64,
            row: ClockRow {
                seq: (n / 16) as u8,
                mr: false,
                base_frequency: 48_000,
                interval: 96,
                payload: self.instant(n).to_be_bytes().to_vec(),
            },
        }
    }

    fn entries(&self, count: u32) -> Vec<Entry> {
        let mut entries = Vec::new();
        for n in 0..count {
            if self.clock && n % 16 == 0 {
                entries.push(self.clock(n));
            }
            entries.push(Entry::Item(self.item(n)));
        }
        entries
    }
}

fn main() {
    let words: Vec<String> = env::args().skip(1).collect();
    let words: Vec<&str> = words.iter().map(String::as_str).collect();
    let [order, waiting, look, clock, items] = words[..] else {
        panic!("judge ORDER WAITING LOOK CLOCK ITEMS");
    };
    let stream = Stream {
        order: match order {
            "rising" => Order::Rising,
            "falling" => Order::Falling,
            "random" => Order::Random,
            "middle" => Order::Middle,
            _ => Order::Equal,
        },
        waiting: waiting.parse().expect("a number"),
        clock: clock == "clock",
    };
    let entries = stream.entries(items.parse().expect("a number"));
    let mut judge = Judge::begin(Plan {
        buffer: 65_536,
        room: 1 << 30,
        look: look.parse().expect("a number"),
        lead: 2_000_000,
        clock: stream.clock,
    });
    let start = Instant::now();
    let mut presented = 0;
    for entry in entries {
        match entry {
            Entry::Item(item) => judge.step(item),
            Entry::Clock { arrival, row } => judge.step_clock(
                arrival,
                &Points {
                    seq: row.seq,
                    mr: row.mr,
                    base_frequency: row.base_frequency,
                    interval: row.interval,
                    payload: &row.payload,
                },
            ),
        }
        presented += drain(&mut judge);
    }
    judge.close();
    presented += drain(&mut judge);
    println!("{presented} {}", start.elapsed().as_nanos());
}
