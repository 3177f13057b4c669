//! The receiver's side of the tight yardstick for `listen`: it reads the capture once, examines each record in the buffer that it
//! was read into, and gives what is shown of the stream item by item.

use crate::aaf::RATES;
use crate::batches::{Batch, Batches, Reason, SECOND};
use crate::pcap::{Records, Refusal};
use crate::present::{Counts, Presenter, Samples, Step};
use crate::stream::packet_of_stream;
use std::fs::File;
use std::io::{self, Write};

/// An item as a listener shows it.
pub enum Shown {
    Present(Batch),
    Flag { frame: u64, seq: u8, reason: Reason },
}

/// The steps of the rates, by `nsr`.
const STEPS: [Step; RATES.len()] = {
    let mut steps = [Step {
        whole: 0,
        part: 0,
        of: 1,
    }; RATES.len()];
    let mut nsr = 1;
    while nsr < RATES.len() {
        let rate = RATES[nsr];
        steps[nsr] = Step {
            whole: (SECOND / rate as u64) as i64,
            part: (SECOND % rate as u64) as u32,
            of: rate,
        };
        nsr += 1;
    }
    steps
};

impl Shown {
    #[inline(always)]
    pub fn present_to<W: Write>(&self, presenter: &mut Presenter<W>) -> io::Result<()> {
        match self {
            Shown::Present(batch) => presenter.samples(&Samples {
                frame: batch.frame,
                seq: batch.seq,
                instant: batch.instant,
                rest: batch.rest,
                step: STEPS[usize::from(batch.nsr)],
                size: batch.size,
                bytes: &batch.bytes,
            }),
            Shown::Flag { frame, seq, reason } => presenter.flag(*frame, *seq, reason.0, reason.1),
        }
    }
}

pub struct Receiver {
    records: Records<File>,
    stream: [u8; 8],
    /// Where the packet of the record begins in its frame, while it is still to be judged.
    packet: Option<usize>,
    batches: Batches,
    counts: Counts,
    has_ended: bool,
    /// The refusal with which the reading ended, if there was one.
    refusal: Option<Refusal>,
}

impl Receiver {
    pub fn new(stream: u64, capture: File) -> Self {
        Receiver {
            records: Records::of(capture),
            stream: stream.to_be_bytes(),
            packet: None,
            batches: Batches::new(),
            counts: Counts::default(),
            has_ended: false,
            refusal: None,
        }
    }

    /// The next item, or none once all was given. A call of its own is faster than the same code in the caller's loop.
    #[inline(never)]
    pub fn next(&mut self) -> io::Result<Option<Shown>> {
        loop {
            if let Some(batch) = self.batches.next_due() {
                self.counts.presented += 1;
                return Ok(Some(Shown::Present(batch)));
            }
            if let Some(start) = self.packet.take() {
                if let Some(flag) = self.judge(start) {
                    return Ok(Some(flag));
                }
            }
            if self.has_ended {
                return Ok(None);
            }
            self.read()?;
        }
    }

    /// Takes back what was presented, so that its memory is used again.
    #[inline(always)]
    pub fn reuse(&mut self, shown: Shown) {
        if let Shown::Present(batch) = shown {
            self.batches.reuse(batch.bytes);
        }
    }

    /// What was counted of the whole capture, or its first refusal, once all was given.
    pub fn end(self) -> Result<Counts, Refusal> {
        match self.refusal {
            Some(refusal) => Err(refusal),
            None => Ok(self.counts),
        }
    }

    /// Reads the next record, or ends the reading, after which all that waits is due.
    #[inline(always)]
    fn read(&mut self) -> io::Result<()> {
        match self.records.advance()? {
            Ok(true) => {
                self.counts.frames += 1;
                let frame = self.records.frame();
                if let Some(pdu) = packet_of_stream(frame, self.stream) {
                    self.packet = Some(frame.len() - pdu.len());
                    self.counts.packets += 1;
                    self.batches.go_on(self.records.arrival() as i64);
                }
            }
            Ok(false) => self.close(None),
            Err(refusal) => self.close(Some(refusal)),
        }
        Ok(())
    }

    #[cold]
    fn close(&mut self, refusal: Option<Refusal>) {
        self.batches.go_on(i64::MAX);
        self.has_ended = true;
        self.refusal = refusal;
    }

    /// Judges the packet of the record, which begins at this offset in its frame, and returns its flag, if it gets one.
    #[inline(always)]
    fn judge(&mut self, start: usize) -> Option<Shown> {
        let frame = self.records.number();
        let pdu = &self.records.frame()[start..];
        let judged = self
            .batches
            .judge(frame, self.records.arrival() as i64, pdu);
        let reason = judged.err()?;
        self.counts.flagged += 1;
        Some(Shown::Flag {
            frame,
            seq: pdu[2],
            reason,
        })
    }
}
