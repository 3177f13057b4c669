//! Finds which packets of a stream are presented, at which instants, and why the others are not, as tightly as an unverified
//! program can: the batches that wait are kept in the order of their instants.

use crate::aaf::HEADER;
use crate::pcap::u16_at;
use crate::stream::read_packet;
use std::collections::VecDeque;

/// The most batches that wait, and the most bytes that they have together.
const BUFFER: usize = 4096;
const ROOM: usize = 67_108_864;

/// How long before its instant a packet is expected, in nanoseconds.
const LEAD: i64 = 2_000_000;

/// How many stamps are searched for a packet without one, and how far from it they may be, in packets.
const STAMPS: usize = 16;
const REACH: u64 = 60;

pub const SECOND: u64 = 1_000_000_000;

/// Why an item is flagged, and the field of a malformed packet.
pub struct Reason(pub &'static str, pub &'static str);

#[derive(Clone, Copy, Default)]
struct Stamp {
    seq: u8,
    mr: u8,
    rate: u32,
    instant: i64,
}

/// The samples of a packet that wait for the instant of the first: `instant` and `rest / rate` of a nanosecond.
pub struct Batch {
    pub instant: i64,
    pub rest: u32,
    pub nsr: u8,
    pub seq: u8,
    pub frame: u64,
    /// The bytes of a sample of all channels.
    pub size: usize,
    pub bytes: Vec<u8>,
}

pub struct Batches {
    now: i64,
    /// The last stamps, in turn, and the number of all so far.
    stamps: [Stamp; STAMPS],
    noted: usize,
    /// By instant, and then by place.
    waiting: VecDeque<Batch>,
    waiting_len: usize,
    /// The vectors of batches that were presented.
    spare: Vec<Vec<u8>>,
}

impl Batches {
    pub fn new() -> Self {
        Batches {
            now: 0,
            stamps: [Stamp::default(); STAMPS],
            noted: 0,
            waiting: VecDeque::new(),
            waiting_len: 0,
            spare: Vec::new(),
        }
    }

    /// Moves the time on to this instant, if it is later.
    #[inline(always)]
    pub fn go_on(&mut self, now: i64) {
        self.now = self.now.max(now);
    }

    /// The next batch whose instant has passed.
    #[inline(always)]
    pub fn next_due(&mut self) -> Option<Batch> {
        let batch = self
            .waiting
            .pop_front_if(|batch| batch.instant < self.now)?;
        self.waiting_len -= batch.bytes.len();
        Some(batch)
    }

    /// Takes back the vector of a batch that was presented.
    #[inline(always)]
    pub fn reuse(&mut self, bytes: Vec<u8>) {
        self.spare.push(bytes);
    }

    /// Keeps the samples of the packet until their instant, or returns why not.
    #[inline(always)]
    pub fn judge(&mut self, frame: u64, arrival: i64, pdu: &[u8]) -> Result<(), Reason> {
        let (_, size, rate) = read_packet(pdu).map_err(|refusal| Reason("malformed ", refusal.0))?;
        let len = usize::from(u16_at(pdu, 20));
        if pdu[3] & 1 != 0 {
            return Err(Reason("uncertain", ""));
        }
        if len == 0 {
            return Err(Reason("empty", ""));
        }
        if rate == 0 {
            return Err(Reason("norate", ""));
        }
        let (instant, rest) = if pdu[1] & 1 != 0 {
            (self.note(arrival, rate, pdu), 0)
        } else {
            self.counted(arrival, rate, len as u64 / u64::from(size), pdu)
                .ok_or(Reason("untimed", ""))?
        };
        let seq = pdu[2];
        let place = self.place_of(instant, seq)?;
        if self.waiting.len() >= BUFFER || self.waiting_len + len > ROOM {
            return Err(Reason("full", ""));
        }
        let mut bytes = self.spare.pop().unwrap_or_default();
        bytes.clear();
        bytes.extend_from_slice(&pdu[HEADER..HEADER + len]);
        self.waiting_len += len;
        let batch = Batch {
            instant,
            rest,
            nsr: pdu[17] >> 4,
            seq,
            frame,
            size: size as usize,
            bytes,
        };
        if place == self.waiting.len() {
            self.waiting.push_back(batch);
        } else {
            self.waiting.insert(place, batch);
        }
        Ok(())
    }

    /// Notes the stamp of a packet, and returns its instant.
    #[inline(always)]
    fn note(&mut self, arrival: i64, rate: u32, pdu: &[u8]) -> i64 {
        let instant = unfold(u32::from_be_bytes(pdu[12..16].try_into().unwrap()), arrival);
        self.stamps[self.noted % STAMPS] = Stamp {
            seq: pdu[2],
            mr: pdu[1] & 8,
            rate,
            instant,
        };
        self.noted += 1;
        instant
    }

    /// The first instant of a packet without a stamp, counted from that of an earlier one.
    fn counted(&self, arrival: i64, rate: u32, count: u64, pdu: &[u8]) -> Option<(i64, u32)> {
        let packets = pdu[2] % 8;
        if pdu[22] & 0x10 == 0 || packets == 0 {
            return None;
        }
        let parts = u64::from(packets) * count * SECOND;
        let back = (parts / u64::from(rate)) as i64;
        let is_head = |stamp: &Stamp| {
            let distance = (arrival + LEAD).abs_diff(stamp.instant + back);
            stamp.seq == pdu[2] - packets
                && stamp.mr == pdu[1] & 8
                && stamp.rate == rate
                && u128::from(distance) * u128::from(rate) <= u128::from(REACH * count * SECOND)
        };
        let first = self.noted.saturating_sub(STAMPS);
        let head = (first..self.noted)
            .rev()
            .map(|n| &self.stamps[n % STAMPS])
            .find(|stamp| is_head(stamp))?;
        Some((head.instant + back, (parts % u64::from(rate)) as u32))
    }

    /// Where a batch with this instant waits: after those that are not later. It is late if its instant has passed, and a copy if
    /// an equal one waits already.
    #[inline(always)]
    fn place_of(&self, instant: i64, seq: u8) -> Result<usize, Reason> {
        if instant < self.now {
            return Err(Reason("late", ""));
        }
        let place = match self.waiting.back() {
            Some(last) if last.instant > instant => self
                .waiting
                .partition_point(|batch| batch.instant <= instant),
            _ => self.waiting.len(),
        };
        let is_copy = self
            .waiting
            .range(..place)
            .rev()
            .take_while(|batch| batch.instant == instant)
            .any(|batch| batch.seq == seq);
        if is_copy {
            return Err(Reason("repeat", ""));
        }
        Ok(place)
    }
}

#[inline(always)]
fn unfold(timestamp: u32, arrival: i64) -> i64 {
    let first = arrival - (1 << 31);
    first + i64::from(timestamp.wrapping_sub(first as u32))
}
