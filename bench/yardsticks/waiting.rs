//! Which packets of AAF and AM824 are presented, and at which instants, for the yardstick of `gateway`.

use crate::aaf::{HEADER, read_aaf};
use crate::formats::{read_iec, u32_at};
use crate::pcap::u16_at;
use std::collections::VecDeque;

/// The most batches that wait, and the most bytes that they have together.
const BUFFER: usize = 4096;
const ROOM: usize = 67_108_864;

const LEAD: i64 = 2_000_000;
const STAMPS: usize = 16;
const SECOND: i64 = 1_000_000_000;

/// The sample rates by FDF.
pub const FDF_RATES: [u32; 7] = [32_000, 44_100, 48_000, 88_200, 96_000, 176_400, 192_000];

/// A packet of samples of a known rate.
pub struct Audio {
    pub is_aaf: bool,
    /// PCM of 24 bits, all of which are used.
    pub is_whole: bool,
    pub rate: u32,
    pub channels: u32,
    pub count: u32,
    /// Where the samples are in the packet.
    pub start: usize,
    pub len: usize,
}

/// SYT_INTERVAL at a rate.
#[inline(always)]
pub fn interval_of(rate: u32) -> u32 {
    match rate {
        88_200 | 96_000 => 16,
        176_400 | 192_000 => 32,
        _ => 8,
    }
}

impl Audio {
    /// What a packet of the stream has, if it is accepted and has samples of a known rate.
    #[inline(always)]
    pub fn read(pdu: &[u8]) -> Option<Self> {
        if pdu[0] == 2 {
            let (format, size, rate) = read_aaf(pdu).ok()?;
            let len = usize::from(u16_at(pdu, 20));
            (rate != 0 && len != 0).then_some(Audio {
                is_aaf: true,
                is_whole: format == "int24" && (pdu[19] == 0 || pdu[19] == 24),
                rate,
                channels: u32::from(u16_at(pdu, 17) & 0x3ff),
                count: len as u32 / size,
                start: HEADER,
                len,
            })
        } else {
            let (quadlets, count) = read_iec(pdu).ok()?;
            (count != 0).then_some(Audio {
                is_aaf: false,
                is_whole: true,
                rate: FDF_RATES[usize::from(pdu[29])],
                channels: quadlets,
                count,
                start: HEADER + 8,
                len: usize::from(u16_at(pdu, 20)) - 8,
            })
        }
    }

    /// The sample that the timestamp belongs to.
    #[inline(always)]
    fn stamped(&self, pdu: &[u8]) -> u32 {
        if self.is_aaf {
            return 0;
        }
        let interval = interval_of(self.rate);
        (interval - u32::from(pdu[27]) % interval) % interval
    }

    /// How many packets back a packet without a timestamp is counted from, and how many samples.
    fn back(&self, pdu: &[u8]) -> Option<(u32, u32)> {
        if self.is_aaf {
            let packets = u32::from(pdu[2] % 8);
            return (pdu[22] & 0x10 != 0 && packets != 0).then_some((packets, packets * self.count));
        }
        let samples = u32::from(pdu[27]) % interval_of(self.rate);
        let packets = samples.div_ceil(self.count);
        (samples != 0 && packets <= 7).then_some((packets, samples))
    }
}

#[derive(Clone, Copy, Default)]
struct Stamp {
    seq: u8,
    mr: u8,
    block: Option<u8>,
    rate: u32,
    instant: i64,
}

/// The samples of a packet: sample j is `from + j` samples after the head, at the nominal rate.
pub struct Batch {
    pub frame: u64,
    pub seq: u8,
    pub instant: i64,
    pub head: i64,
    pub from: i64,
    pub rate: u32,
    pub count: u32,
    pub is_aaf: bool,
    pub channels: u32,
    pub bytes: Vec<u8>,
}

pub struct Waiting {
    now: i64,
    stamps: [Stamp; STAMPS],
    noted: usize,
    batches: VecDeque<Batch>,
    len: usize,
    spare: Vec<Vec<u8>>,
}

#[inline(always)]
pub fn offset(samples: i64, rate: u32) -> i64 {
    (samples * SECOND).div_euclid(i64::from(rate))
}

impl Waiting {
    pub fn new() -> Self {
        Waiting {
            now: 0,
            stamps: [Stamp::default(); STAMPS],
            noted: 0,
            batches: VecDeque::new(),
            len: 0,
            spare: Vec::new(),
        }
    }

    #[inline(always)]
    pub fn go_on(&mut self, now: i64) {
        self.now = self.now.max(now);
    }

    #[inline(always)]
    pub fn next_due(&mut self) -> Option<Batch> {
        let batch = self.batches.pop_front_if(|batch| batch.instant < self.now)?;
        self.len -= batch.bytes.len();
        Some(batch)
    }

    #[inline(always)]
    pub fn reuse(&mut self, bytes: Vec<u8>) {
        self.spare.push(bytes);
    }

    /// The instant that a packet is counted from, and the number of its first sample from there.
    #[inline(always)]
    fn head_of(&mut self, arrival: i64, pdu: &[u8], audio: &Audio) -> Option<(i64, i64)> {
        let stamped = audio.stamped(pdu);
        if pdu[1] & 1 == 0 || stamped >= audio.count {
            return self.head_back(arrival, pdu, audio);
        }
        let first = arrival - (1 << 31);
        let instant = first + i64::from(u32_at(pdu, 12).wrapping_sub(first as u32));
        self.stamps[self.noted % STAMPS] = Stamp {
            seq: pdu[2],
            mr: pdu[1] & 8,
            block: (!audio.is_aaf).then(|| pdu[27].wrapping_add(stamped as u8)),
            rate: audio.rate,
            instant,
        };
        self.noted += 1;
        Some((instant, -i64::from(stamped)))
    }

    fn head_back(&self, arrival: i64, pdu: &[u8], audio: &Audio) -> Option<(i64, i64)> {
        let (packets, samples) = audio.back(pdu)?;
        let back = offset(samples.into(), audio.rate);
        let block = (!audio.is_aaf).then(|| pdu[27].wrapping_sub(samples as u8));
        let is_head = |stamp: &&Stamp| {
            let distance = (arrival + LEAD).abs_diff(stamp.instant + back);
            stamp.seq == pdu[2].wrapping_sub(packets as u8)
                && stamp.mr == pdu[1] & 8
                && stamp.block == block
                && stamp.rate == audio.rate
                && u128::from(distance) * u128::from(audio.rate) <= 60 * u128::from(audio.count) * SECOND as u128
        };
        let first = self.noted.saturating_sub(STAMPS);
        let head = (first..self.noted).rev().map(|n| &self.stamps[n % STAMPS]).find(is_head)?;
        Some((head.instant, samples.into()))
    }

    /// Keeps the samples of a packet until their instant, unless they are flagged.
    #[inline(always)]
    pub fn judge(&mut self, frame: u64, arrival: i64, pdu: &[u8], audio: &Audio) {
        if pdu[3] & 1 != 0 {
            return;
        }
        let Some((head, from)) = self.head_of(arrival, pdu, audio) else {
            return;
        };
        let instant = head + if from == 0 { 0 } else { offset(from, audio.rate) };
        let seq = pdu[2];
        let place = match self.batches.back() {
            Some(last) if last.instant > instant => self.batches.partition_point(|batch| batch.instant <= instant),
            _ => self.batches.len(),
        };
        let mut same = self.batches.range(..place).rev().take_while(|batch| batch.instant == instant);
        let is_flagged = instant < self.now || same.any(|batch| batch.seq == seq) || self.batches.len() >= BUFFER || self.len + audio.len > ROOM;
        if is_flagged {
            return;
        }
        let mut bytes = self.spare.pop().unwrap_or_default();
        bytes.clear();
        bytes.extend_from_slice(&pdu[audio.start..audio.start + audio.len]);
        self.len += audio.len;
        let batch = Batch {
            frame,
            seq,
            instant,
            head,
            from,
            rate: audio.rate,
            count: audio.count,
            is_aaf: audio.is_aaf,
            channels: audio.channels,
            bytes,
        };
        self.batches.insert(place, batch);
    }
}
