//! Text on its way to standard output or to another writer. Lines are added to what waits without bounds checks.

use crate::pcap::Refusal;
use std::io::{self, Write};

/// Text that waits for a writer, which is standard output unless another is given.
pub struct Text<W: Write = io::Stdout> {
    waiting: Vec<u8>,
    pub out: W,
}

impl<W: Write> Text<W> {
    const ROOM: usize = 65_536;

    pub fn over(out: W) -> Self {
        Text {
            waiting: Vec::with_capacity(Self::ROOM),
            out,
        }
    }

    pub fn flush(&mut self) -> io::Result<()> {
        self.out.write_all(&self.waiting)?;
        self.waiting.clear();
        Ok(())
    }

    /// A new line after the text, with at most this much room. What waits is written first if the line might not fit.
    #[inline(always)]
    pub fn line(&mut self, room: usize) -> io::Result<Line<'_>> {
        if self.waiting.len() + room > Self::ROOM {
            self.flush()?;
        }
        Ok(Line::behind(&mut self.waiting))
    }
}

/// A line that is being written after the text that waits. Its calls are sound while it fits in the room that the text has left.
pub struct Line<'a> {
    waiting: &'a mut Vec<u8>,
    pub at: *mut u8,
}

impl<'a> Line<'a> {
    /// No line is longer, apart from the bytes of a sample.
    pub const ROOM: usize = 256;

    #[inline(always)]
    pub fn behind(waiting: &'a mut Vec<u8>) -> Self {
        let at = waiting.spare_capacity_mut().as_mut_ptr().cast();
        Line { waiting, at }
    }

    #[inline(always)]
    pub fn add<const N: usize>(&mut self, piece: &[u8; N]) {
        unsafe {
            self.at.cast::<[u8; N]>().write_unaligned(*piece);
            self.at = self.at.add(N);
        }
    }

    #[inline(always)]
    pub fn text(&mut self, piece: &str) {
        unsafe {
            self.at.copy_from_nonoverlapping(piece.as_ptr(), piece.len());
            self.at = self.at.add(piece.len());
        }
    }

    #[inline(always)]
    pub fn number<const N: usize>(&mut self, label: &[u8; N], number: u64) {
        self.add(label);
        if number < 10 {
            self.add(&[b'0' + number as u8]);
        } else if number < 100 {
            self.add(&two_digits(number));
        } else {
            self.digits(number);
        }
    }

    /// Adds the digits of a number from its last, two at a time.
    #[inline(always)]
    fn digits(&mut self, number: u64) {
        let mut left = number;
        unsafe {
            self.at = self.at.add(number.ilog10() as usize + 1);
            let mut end = self.at;
            while left >= 100 {
                end = end.sub(2);
                end.cast::<[u8; 2]>().write_unaligned(two_digits(left % 100));
                left /= 100;
            }
            if left >= 10 {
                end.sub(2).cast::<[u8; 2]>().write_unaligned(two_digits(left));
            } else {
                end.sub(1).write(b'0' + left as u8);
            }
        }
    }

    #[inline(always)]
    pub fn hex<const N: usize>(&mut self, bytes: &[u8; N]) {
        const DIGITS: &[u8; 16] = b"0123456789abcdef";
        for byte in bytes {
            self.add(&[DIGITS[usize::from(byte >> 4)], DIGITS[usize::from(byte & 15)]]);
        }
    }

    pub fn refusal<const N: usize>(&mut self, label: &[u8; N], Refusal(field, at, short): Refusal) {
        self.add(label);
        self.text(field);
        self.number(b" at ", at as u64);
        self.text(if short { " short" } else { "" });
    }

    #[inline(always)]
    pub fn end(mut self) {
        self.add(b"\n");
        self.stop();
    }

    /// Ends the text here, without a new line.
    #[inline(always)]
    pub fn stop(self) {
        unsafe {
            let len = self.at.offset_from(self.waiting.as_ptr()) as usize;
            self.waiting.set_len(len);
        }
    }
}

#[inline(always)]
pub fn two_digits(number: u64) -> [u8; 2] {
    const PAIRS: &[u8; 200] = b"0001020304050607080910111213141516171819\
        2021222324252627282930313233343536373839\
        4041424344454647484950515253545556575859\
        6061626364656667686970717273747576777879\
        8081828384858687888990919293949596979899";
    let at = number as usize * 2;
    [PAIRS[at], PAIRS[at + 1]]
}
