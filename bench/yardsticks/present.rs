//! The presenter's side of the yardsticks for `listen`: the lines of what is shown, each written directly after the waiting text,
//! without bounds checks.

use crate::pcap::Refusal;
use crate::text::{Line, Text, two_digits};
use std::io::{self, Write};
use std::process::ExitCode;

/// How many records were read, how many packets of the stream were among them, and what became of these.
#[derive(Default)]
pub struct Counts {
    pub frames: u64,
    pub packets: u64,
    pub presented: u64,
    pub flagged: u64,
}

/// The step from one sample to the next: whole nanoseconds, and `part / of` of a nanosecond.
#[derive(Clone, Copy)]
pub struct Step {
    pub whole: i64,
    pub part: u32,
    pub of: u32,
}

/// The samples of a packet, of which the first is due at `instant` and `rest / step.of` of a nanosecond.
pub struct Samples<'a> {
    pub frame: u64,
    pub seq: u8,
    pub instant: i64,
    pub rest: u32,
    pub step: Step,
    /// The bytes of a sample of all channels.
    pub size: usize,
    pub bytes: &'a [u8],
}

pub struct Presenter<W: Write = io::Stdout> {
    /// How the line before began.
    due: Due,
    /// What each line of a batch has between the instant and the number of the sample.
    place: Short,
    text: Text<W>,
}

impl Presenter {
    /// A presenter of the capture at this path, which it prints.
    pub fn begin(path: &str) -> io::Result<Self> {
        writeln!(io::stdout(), "capture {path}")?;
        Ok(Presenter::over(io::stdout()))
    }
}

impl<W: Write> Presenter<W> {
    /// A presenter whose text goes to this writer.
    pub fn over(out: W) -> Self {
        Presenter {
            due: Due {
                text: Short::new(),
                from: None,
            },
            place: Short::new(),
            text: Text::over(out),
        }
    }

    /// Writes all that waits, and returns the writer.
    #[allow(dead_code)] // Only the text of samples by itself asks for it.
    pub fn flushed(&mut self) -> io::Result<&W> {
        self.text.flush()?;
        Ok(&self.text.out)
    }

    #[inline(always)]
    pub fn samples(&mut self, samples: &Samples) -> io::Result<()> {
        let mut line = self.place.line();
        line.number(b" frame ", samples.frame);
        line.number(b" seq ", samples.seq.into());
        line.add(b" sample ");
        line.stop();

        let Step { whole, part, of } = samples.step;
        let mut instant = samples.instant;
        let mut rest = samples.rest;
        for (j, sample) in samples.bytes.chunks_exact(samples.size).enumerate() {
            let mut line = self.text.line(Line::ROOM + 2 * samples.size)?;
            self.due.add_to(&mut line, instant);
            line.short(&self.place);
            line.number(b"", j as u64);
            line.add(b" ");
            let (fours, ones) = sample.as_chunks::<4>();
            for four in fours {
                line.hex(four);
            }
            for one in ones {
                line.hex(&[*one]);
            }
            line.end();
            instant += whole;
            rest += part;
            if rest >= of {
                rest -= of;
                instant += 1;
            }
        }
        Ok(())
    }

    /// Flags a packet, for a reason and the field that it names.
    pub fn flag(&mut self, frame: u64, seq: u8, reason: &str, field: &str) -> io::Result<()> {
        let mut line = self.text.line(Line::ROOM)?;
        line.number(b"flag frame ", frame);
        line.number(b" seq ", seq.into());
        line.add(b" ");
        line.text(reason);
        line.text(field);
        line.end();
        Ok(())
    }

    /// Ends the text according to how the reading ended, and returns its status.
    pub fn end(mut self, end: Result<Counts, Refusal>) -> io::Result<ExitCode> {
        let status = if end.is_ok() { 0 } else { 3 };
        let mut line = self.text.line(Line::ROOM)?;
        match end {
            Ok(counts) => {
                line.number(b"end frames ", counts.frames);
                line.number(b" packets ", counts.packets);
                line.number(b" presented ", counts.presented);
                line.number(b" flagged ", counts.flagged);
            }
            Err(refusal) => line.refusal(b"capture refused: ", refusal),
        }
        line.end();
        self.text.flush()?;
        Ok(ExitCode::from(status))
    }
}

/// A text of at most `Short::ROOM` bytes that many lines have.
struct Short(Vec<u8>);

impl Short {
    const ROOM: usize = 64;

    fn new() -> Self {
        Short(Vec::with_capacity(Self::ROOM))
    }

    #[inline(always)]
    fn line(&mut self) -> Line<'_> {
        self.0.clear();
        Line::behind(&mut self.0)
    }
}

/// The beginning of the lines of samples whose instants differ only in the last eight digits.
struct Due {
    text: Short,
    /// The first of these instants, and none before the first line.
    from: Option<i64>,
}

impl Due {
    const INSTANTS: i64 = 100_000_000;

    #[inline(always)]
    fn add_to(&mut self, line: &mut Line, instant: i64) {
        if instant < Self::INSTANTS {
            return line.number(b"at ", instant as u64);
        }
        let from = match self.from {
            Some(from) if (from..from + Self::INSTANTS).contains(&instant) => from,
            _ => self.begin(instant),
        };
        line.short(&self.text);
        line.eight_digits((instant - from) as u32);
    }

    #[cold]
    #[inline(never)]
    fn begin(&mut self, instant: i64) -> i64 {
        let before = instant / Self::INSTANTS;
        let mut line = self.text.line();
        line.number(b"at ", before as u64);
        line.stop();
        let from = before * Self::INSTANTS;
        self.from = Some(from);
        from
    }
}

impl Line<'_> {
    /// Adds a short text. It always moves the most bytes that a short text can have, which is faster than to move only those that
    /// it has.
    #[inline(always)]
    fn short(&mut self, Short(text): &Short) {
        unsafe {
            self.at.copy_from_nonoverlapping(text.as_ptr(), Short::ROOM);
            self.at = self.at.add(text.len());
        }
    }

    #[inline(always)]
    fn eight_digits(&mut self, number: u32) {
        for four in [number / 10_000, number % 10_000] {
            self.add(&two_digits(u64::from(four / 100 % 100)));
            self.add(&two_digits(u64::from(four % 100)));
        }
    }
}
