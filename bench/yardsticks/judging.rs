//! The receiver's side of the yardstick for `listen` that has its design, without contracts: it reads the capture once, examines
//! each record in the buffer that it was read into, copies the samples of a packet of the stream once, and judges the packets by
//! `schedule`.

use crate::items::item_of;
use crate::pcap::{Records, Refusal};
use crate::present::{Counts, Presenter, Samples, Step};
use crate::schedule::{Batch, Judge, Plan, Reason, Shown};
use crate::stream::packet_of_stream;
use std::fs::File;
use std::io;

const PLAN: Plan = Plan {
    buffer: 4_096,
    room: 67_108_864,
    look: 0,
    lead: 2_000_000,
    clock: false,
};

pub struct Receiver {
    records: Records<File>,
    stream: [u8; 8],
    judge: Judge,
    counts: Counts,
    has_ended: bool,
    /// The refusal with which the reading ended, if there was one.
    refusal: Option<Refusal>,
}

impl Receiver {
    pub fn new(stream: u64, capture: File) -> Self {
        Receiver {
            records: Records::of(capture),
            stream: stream.to_be_bytes(),
            judge: Judge::begin(PLAN),
            counts: Counts::default(),
            has_ended: false,
            refusal: None,
        }
    }

    /// The next item, or none once all was given.
    #[inline(never)]
    pub fn next(&mut self) -> io::Result<Option<Shown>> {
        loop {
            if let Some(shown) = self.judge.next_out() {
                match shown {
                    Shown::Present(_) => self.counts.presented += 1,
                    Shown::Flag { .. } => self.counts.flagged += 1,
                }
                return Ok(Some(shown));
            }
            if self.has_ended {
                return Ok(None);
            }
            self.read()?;
        }
    }

    /// What was counted of the whole capture, or its first refusal, once all was given.
    pub fn end(self) -> Result<Counts, Refusal> {
        match self.refusal {
            Some(refusal) => Err(refusal),
            None => Ok(self.counts),
        }
    }

    /// Reads the next record, or ends the reading, after which all that waits is due.
    #[inline(always)]
    fn read(&mut self) -> io::Result<()> {
        match self.records.advance()? {
            Ok(true) => {
                self.counts.frames += 1;
                if let Some(pdu) = packet_of_stream(self.records.frame(), self.stream) {
                    self.counts.packets += 1;
                    let arrival = self.records.arrival() as i64;
                    self.judge.step(item_of(self.records.number(), arrival, pdu));
                }
            }
            Ok(false) => self.close(None),
            Err(refusal) => self.close(Some(refusal)),
        }
        Ok(())
    }

    #[cold]
    fn close(&mut self, refusal: Option<Refusal>) {
        self.judge.close();
        self.has_ended = true;
        self.refusal = refusal;
    }
}

/// The samples of a batch, whose line has the spacing of a sample rate.
#[inline(always)]
fn samples_of(batch: &Batch) -> Samples<'_> {
    let rate = batch.line.den as i64;
    let num = batch.line.num as i64;
    let parts = batch.from * num;
    Samples {
        frame: batch.frame,
        seq: batch.seq,
        instant: batch.line.base + parts.div_euclid(rate),
        rest: parts.rem_euclid(rate) as u32,
        step: Step {
            whole: num / rate,
            part: (num % rate) as u32,
            of: rate as u32,
        },
        size: batch.bytes.len() / batch.count as usize,
        bytes: &batch.bytes,
    }
}

#[inline(always)]
pub fn present(presenter: &mut Presenter, shown: &Shown) -> io::Result<()> {
    match shown {
        Shown::Present(batch) => presenter.samples(&samples_of(batch)),
        Shown::Flag { frame, seq, reason } => {
            let (name, field) = match reason {
                Reason::Malformed(field) => ("malformed ", *field),
                Reason::Uncertain => ("uncertain", ""),
                Reason::Empty => ("empty", ""),
                Reason::NoRate => ("norate", ""),
                Reason::Untimed => ("untimed", ""),
                Reason::NoClock => ("noclock", ""),
                Reason::Late => ("late", ""),
                Reason::Repeat => ("repeat", ""),
                Reason::Full => ("full", ""),
            };
            presenter.flag(*frame, *seq, name, field)
        }
    }
}
