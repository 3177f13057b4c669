//! Which of a list of items are presented, and why the others are not, with the design of `schedule_judge` but without
//! contracts. The yardsticks of `bench/run` for a judge and for a listener each use a part.
#![allow(dead_code)]

use std::collections::VecDeque;
use std::hint::black_box;

const STAMPS: usize = 16;
const WINDOW: usize = 64;

/// A block has fewer than twice as many keys.
const HALF: usize = 256;

const SECOND: u64 = 1_000_000_000;

// ---- items

#[derive(Clone, Copy)]
pub enum HeadRule {
    Own,
    Eight,
    Blocks { dbc: u8, interval: u32 },
}

pub struct Packet {
    pub frame: u64,
    pub arrival: i64,
    pub seq: u8,
    pub mr: bool,
    pub tu: bool,
    pub stamp: Option<u32>,
    pub rule: HeadRule,
    pub rate: u32,
    pub count: u32,
    pub bytes: Vec<u8>,
}

pub struct Unit {
    pub frame: u64,
    pub arrival: i64,
    pub seq: u8,
    pub instant: i64,
    pub bytes: Vec<u8>,
}

pub struct Bad {
    pub frame: u64,
    pub arrival: i64,
    pub seq: u8,
    pub reason: Reason,
}

pub enum Item {
    Packet(Packet),
    Unit(Unit),
    Bad(Bad),
}

#[derive(Clone, Copy)]
pub struct Points<'a> {
    pub seq: u8,
    pub mr: bool,
    pub base_frequency: u32,
    pub interval: u16,
    pub payload: &'a [u8],
}

pub struct ClockRow {
    pub seq: u8,
    pub mr: bool,
    pub base_frequency: u32,
    pub interval: u16,
    pub payload: Vec<u8>,
}

#[derive(Clone, Copy)]
pub enum Reason {
    /// The packet was refused by the field of this name.
    Malformed(&'static str),
    Uncertain,
    Empty,
    NoRate,
    Untimed,
    NoClock,
    Late,
    Repeat,
    Full,
}

impl Item {
    fn arrival(&self) -> i64 {
        match self {
            Item::Packet(packet) => packet.arrival,
            Item::Unit(unit) => unit.arrival,
            Item::Bad(bad) => bad.arrival,
        }
    }

    fn name(&self) -> (u64, u8) {
        match self {
            Item::Packet(packet) => (packet.frame, packet.seq),
            Item::Unit(unit) => (unit.frame, unit.seq),
            Item::Bad(bad) => (bad.frame, bad.seq),
        }
    }
}

// ---- what is shown

#[derive(Clone, Copy)]
pub struct Line {
    pub base: i64,
    pub num: u64,
    pub den: u64,
}

pub struct Batch {
    pub frame: u64,
    pub seq: u8,
    pub line: Line,
    pub from: i64,
    pub count: u32,
    pub bytes: Vec<u8>,
}

pub enum Shown {
    Present(Batch),
    Flag { frame: u64, seq: u8, reason: Reason },
}

impl Line {
    fn at(&self, number: i64) -> i64 {
        let parts = i128::from(number) * i128::from(self.num);
        match i64::try_from(parts) {
            Ok(parts) if self.den <= i64::MAX as u64 => self.base + parts.div_euclid(self.den as i64),
            _ => self.base + parts.div_euclid(i128::from(self.den)) as i64,
        }
    }
}

// ---- what waits

#[derive(Clone, Copy)]
struct Key {
    instant: i64,
    slot: u32,
    seq: u8,
}

/// Keys in blocks, sorted by instant, and then by the order in which they came.
struct Keys {
    blocks: VecDeque<VecDeque<Key>>,
    spare: Vec<VecDeque<Key>>,
}

impl Keys {
    fn with_room(room: usize) -> Self {
        let count = room / HALF + 1;
        let mut blocks = VecDeque::with_capacity(count);
        blocks.push_back(VecDeque::with_capacity(2 * HALF));
        let spare = (1..count).map(|_| VecDeque::with_capacity(2 * HALF)).collect();
        Keys { blocks, spare }
    }

    /// The last block whose first key is not later, or the first one.
    fn block_of(&self, instant: i64) -> usize {
        let starts = |block: &VecDeque<Key>| block.front().is_none_or(|first| first.instant <= instant);
        match self.blocks.back() {
            Some(last) if starts(last) => self.blocks.len() - 1,
            _ => self.blocks.partition_point(starts).saturating_sub(1),
        }
    }

    fn put(&mut self, key: Key) {
        let place = self.block_of(key.instant);
        let block = &mut self.blocks[place];
        match block.back() {
            Some(last) if key.instant < last.instant => {
                let behind = block.partition_point(|other| other.instant <= key.instant);
                block.insert(behind, key);
            }
            _ => block.push_back(key),
        }
        if block.len() == 2 * HALF {
            let mut upper = self.spare.pop().unwrap();
            upper.extend(block.drain(HALF..));
            self.blocks.insert(place + 1, upper);
        }
    }

    fn has(&self, instant: i64, seq: u8) -> bool {
        for block in self.blocks.range(..=self.block_of(instant)).rev() {
            let end = match block.back() {
                Some(last) if instant < last.instant => block.partition_point(|key| key.instant <= instant),
                _ => block.len(),
            };
            for key in block.range(..end).rev() {
                if key.instant != instant {
                    return false;
                }
                if key.seq == seq {
                    return true;
                }
            }
        }
        false
    }

    fn first(&self) -> Option<&Key> {
        self.blocks[0].front()
    }

    fn take_first(&mut self) -> Option<Key> {
        let first = self.blocks[0].pop_front();
        if self.blocks[0].is_empty() && self.blocks.len() > 1 {
            self.spare.extend(self.blocks.pop_front());
        }
        first
    }
}

/// Batches in slots.
struct Slots {
    batches: Vec<Option<Batch>>,
    free: Vec<u32>,
}

struct Waiting {
    keys: Keys,
    slots: Slots,
    count: usize,
    bytes: usize,
}

impl Waiting {
    fn put(&mut self, instant: i64, batch: Batch) {
        let seq = batch.seq;
        self.count += 1;
        self.bytes += batch.bytes.len();
        let slot = match self.slots.free.pop() {
            Some(slot) => {
                self.slots.batches[slot as usize] = Some(batch);
                slot
            }
            None => {
                self.slots.batches.push(Some(batch));
                self.slots.batches.len() as u32 - 1
            }
        };
        self.keys.put(Key { instant, slot, seq });
    }

    fn take_first(&mut self) -> Option<Batch> {
        let key = self.keys.take_first()?;
        let batch = self.slots.batches[key.slot as usize].take()?;
        self.slots.free.push(key.slot);
        self.count -= 1;
        self.bytes -= batch.bytes.len();
        Some(batch)
    }

    fn take_due(&mut self, now: i64) -> Option<Batch> {
        if self.keys.first()?.instant < now {
            self.take_first()
        } else {
            None
        }
    }
}

// ---- what packets are counted from

#[derive(Clone, Copy)]
struct Stamp {
    seq: u8,
    mr: bool,
    block: u8,
    rate: u32,
    instant: i64,
}

fn unfold(timestamp: u32, arrival: i64) -> i64 {
    let first = arrival - (1 << 31);
    first + i64::from(timestamp.wrapping_sub(first as u32))
}

struct Clock {
    rows: VecDeque<ClockRow>,
    spare: Vec<Vec<u8>>,
}

impl Clock {
    fn new() -> Self {
        Clock {
            rows: VecDeque::with_capacity(WINDOW),
            spare: (0..WINDOW).map(|_| Vec::with_capacity(65_528)).collect(),
        }
    }

    fn note(&mut self, points: &Points) {
        let mut payload = match self.spare.pop() {
            Some(payload) => payload,
            None => self.rows.pop_front().unwrap().payload,
        };
        payload.clear();
        payload.extend_from_slice(points.payload);
        self.rows.push_back(ClockRow {
            seq: points.seq,
            mr: points.mr,
            base_frequency: points.base_frequency,
            interval: points.interval,
            payload,
        });
    }

    /// The line of the last joined pair that covers an instant, and the number of its sample.
    fn line_for(&self, instant: i64, rate: u32) -> Option<(Line, u64)> {
        let timestamp = |row: &ClockRow, i: usize| u64::from_be_bytes(row.payload[8 * i..][..8].try_into().unwrap());
        for place in (0..self.rows.len()).rev() {
            let row = &self.rows[place];
            let count = row.payload.len() / 8;
            for i in (1..count).rev() {
                let line = line_of(row, timestamp(row, i - 1), timestamp(row, i), instant, rate);
                if line.is_some() {
                    return line;
                }
            }
            if count == 0 || is_too_late(timestamp(row, 0), instant, rate) {
                continue;
            }
            for before in self.rows.iter().rev() {
                let before_count = before.payload.len() / 8;
                if before_count == 0 || !seems_next(row, before) {
                    continue;
                }
                let line = line_of(row, timestamp(before, before_count - 1), timestamp(row, 0), instant, rate);
                if line.is_some() {
                    return line;
                }
            }
        }
        None
    }
}

/// A pair covers instants from half a sample before its later point on, and its samples are at most 9/8 of the nominal time
/// apart.
fn is_too_late(later: u64, instant: i64, rate: u32) -> bool {
    (later as i64 - instant) * 16 * i64::from(rate) > 9 * SECOND as i64
}

fn seems_next(row: &ClockRow, before: &ClockRow) -> bool {
    row.seq == before.seq.wrapping_add(1)
        && row.mr == before.mr
        && row.base_frequency == before.base_frequency
        && row.interval == before.interval
}

fn line_of(row: &ClockRow, earlier: u64, later: u64, instant: i64, rate: u32) -> Option<(Line, u64)> {
    let period = later.checked_sub(earlier)?;
    let num = period.checked_mul(row.base_frequency.into())?;
    let nominal = u64::from(row.interval) * SECOND;
    if num.checked_mul(8)? < 7 * nominal || 8 * num > 9 * nominal {
        return None;
    }
    let den = u64::from(row.interval) * u64::from(rate);
    let reach = i128::from(instant - later as i64) * 2 * i128::from(den) + i128::from(num);
    if reach < 0 || reach >= 2 * i128::from(period) * i128::from(den) {
        return None;
    }
    let line = Line {
        base: later as i64,
        num,
        den,
    };
    let events = match u64::try_from(reach) {
        Ok(reach) => reach / (2 * num),
        Err(_) => (reach / i128::from(2 * num)) as u64,
    };
    Some((line, events))
}

// ---- the judge

pub struct Plan {
    pub buffer: usize,
    pub room: usize,
    pub look: usize,
    pub lead: i64,
    pub clock: bool,
}

enum Pending {
    Item(Item),
    Clock { arrival: i64 },
}

pub struct Judge {
    plan: Plan,
    time: i64,
    stamps: VecDeque<Stamp>,
    clock: Option<Clock>,
    waiting: Waiting,
    /// The first of the entries ahead is being judged.
    judging: bool,
    ahead: VecDeque<Pending>,
    closed: bool,
}

impl Judge {
    pub fn begin(plan: Plan) -> Self {
        let waiting = Waiting {
            keys: Keys::with_room(plan.buffer),
            slots: Slots {
                batches: Vec::with_capacity(plan.buffer),
                free: Vec::with_capacity(plan.buffer),
            },
            count: 0,
            bytes: 0,
        };
        Judge {
            time: 0,
            stamps: VecDeque::with_capacity(plan.look + STAMPS),
            clock: plan.clock.then(Clock::new),
            waiting,
            judging: false,
            ahead: VecDeque::with_capacity(plan.look + 1),
            closed: false,
            plan,
        }
    }

    fn put(&mut self, pending: Pending) {
        self.ahead.push_back(pending);
        if self.ahead.len() > self.plan.look {
            self.judge_next();
        }
    }

    fn judge_next(&mut self) -> bool {
        let Some(next) = self.ahead.front() else {
            return false;
        };
        self.time = self.time.max(match next {
            Pending::Item(item) => item.arrival(),
            Pending::Clock { arrival } => *arrival,
        });
        self.judging = true;
        true
    }

    pub fn step(&mut self, item: Item) {
        if let Item::Packet(packet) = &item
            && let Some(stamp) = usable_stamp(packet)
        {
            if self.stamps.len() == self.plan.look + STAMPS {
                self.stamps.pop_front();
            }
            self.stamps.push_back(Stamp {
                seq: packet.seq,
                mr: packet.mr,
                block: 0,
                rate: packet.rate,
                instant: unfold(stamp, packet.arrival),
            });
        }
        self.put(Pending::Item(item));
    }

    pub fn step_clock(&mut self, arrival: i64, points: &Points) {
        if let Some(clock) = &mut self.clock {
            clock.note(points);
        }
        self.put(Pending::Clock { arrival });
    }

    /// Nothing follows.
    pub fn close(&mut self) {
        self.closed = true;
    }

    pub fn next_out(&mut self) -> Option<Shown> {
        loop {
            if self.judging {
                if let Some(batch) = self.waiting.take_due(self.time) {
                    return Some(Shown::Present(batch));
                }
                self.judging = false;
                if let Some(Pending::Item(item)) = self.ahead.pop_front() {
                    let (frame, seq) = item.name();
                    if let Err(reason) = self.judge(item) {
                        return Some(Shown::Flag { frame, seq, reason });
                    }
                }
            }
            if !self.closed {
                return None;
            }
            if !self.judge_next() {
                return self.waiting.take_first().map(Shown::Present);
            }
        }
    }

    fn judge(&mut self, item: Item) -> Result<(), Reason> {
        let batch = self.timed(item)?;
        let instant = batch.line.at(batch.from);
        if instant < self.time {
            return Err(Reason::Late);
        }
        if self.waiting.keys.has(instant, batch.seq) {
            return Err(Reason::Repeat);
        }
        if self.waiting.count >= self.plan.buffer || self.waiting.bytes + batch.bytes.len() > self.plan.room {
            return Err(Reason::Full);
        }
        self.waiting.put(instant, batch);
        Ok(())
    }

    fn timed(&self, item: Item) -> Result<Batch, Reason> {
        match item {
            Item::Packet(packet) => self.timed_packet(packet),
            Item::Unit(unit) => Ok(Batch {
                frame: unit.frame,
                seq: unit.seq,
                line: Line {
                    base: unit.instant,
                    num: 1,
                    den: 1,
                },
                from: 0,
                count: 1,
                bytes: unit.bytes,
            }),
            Item::Bad(bad) => Err(bad.reason),
        }
    }

    fn timed_packet(&self, packet: Packet) -> Result<Batch, Reason> {
        if packet.tu {
            return Err(Reason::Uncertain);
        }
        if packet.count == 0 {
            return Err(Reason::Empty);
        }
        if packet.rate == 0 {
            return Err(Reason::NoRate);
        }
        let (head, first) = self.head_of(&packet).ok_or(Reason::Untimed)?;
        let (line, from) = match &self.clock {
            None => {
                let line = Line {
                    base: head,
                    num: SECOND,
                    den: packet.rate.into(),
                };
                (line, first)
            }
            Some(clock) => {
                let (line, number) = clock.line_for(head, packet.rate).ok_or(Reason::NoClock)?;
                (line, number as i64 + first)
            }
        };
        Ok(Batch {
            frame: packet.frame,
            seq: packet.seq,
            line,
            from,
            count: packet.count,
            bytes: packet.bytes,
        })
    }

    /// The instant of the stamped sample, and the number of the packet's first one counted from it.
    fn head_of(&self, packet: &Packet) -> Option<(i64, i64)> {
        if let Some(stamp) = usable_stamp(packet) {
            return Some((unfold(stamp, packet.arrival), 0));
        }
        let HeadRule::Eight = packet.rule else {
            return None;
        };
        let back = packet.seq % 8;
        if back == 0 {
            return None;
        }
        let samples = i64::from(back) * i64::from(packet.count);
        let span = samples * SECOND as i64 / i64::from(packet.rate);
        let reach = u128::from(60 * u64::from(packet.count) * SECOND);
        let fits = |stamp: &&Stamp| {
            let distance = (packet.arrival + self.plan.lead).abs_diff(stamp.instant + span);
            stamp.seq == packet.seq - back
                && stamp.mr == packet.mr
                && stamp.rate == packet.rate
                && u128::from(distance) * u128::from(packet.rate) <= reach
        };
        let stamp = self.stamps.iter().rev().find(fits)?;
        Some((stamp.instant, samples))
    }
}

fn usable_stamp(packet: &Packet) -> Option<u32> {
    if packet.tu || packet.rate == 0 || packet.count == 0 {
        return None;
    }
    packet.stamp
}

/// Counts the batches that are presented of all that is due.
pub fn drain(judge: &mut Judge) -> u64 {
    let mut presented = 0;
    while let Some(shown) = judge.next_out() {
        if let Shown::Present(_) = black_box(shown) {
            presented += 1;
        }
    }
    presented
}
