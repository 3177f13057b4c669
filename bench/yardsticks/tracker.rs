//! The streams of a capture, and the rules that a packet breaks, given those of its stream that came before it.

/// The most streams that are tracked.
const MOST: usize = 1024;

/// At most half of the slots are used, so that a search soon ends.
const SLOT_BITS: u32 = 11;
const SLOTS: usize = 1 << SLOT_BITS;
const _: () = assert!(SLOTS == 2 * MOST);

/// The subtype of an unused slot: none that is checked.
const UNUSED: u8 = 0xff;

/// The restart bit keeps its value for at least this many packets.
const LEAST_HOLD: u8 = 8;

/// What is kept of a stream.
#[derive(Clone, Copy)]
struct Stream {
    id: u64,
    subtype: u8,
    seq: u8,
    mr: bool,
    /// For how many packets the restart bit has kept its value, up to `LEAST_HOLD`; the count stays there if the bit never
    /// changed.
    held: u8,
}

/// The rules that a packet breaks, given those before it.
#[derive(Clone, Copy)]
pub struct Order {
    pub untracked: bool,
    /// The distance from the last sequence number, modulo 256. A distance of 1 breaks no rule.
    pub step: u8,
    /// For how many packets the restart bit kept its value. `LEAST_HOLD` breaks no rule.
    hold: u8,
}

impl Order {
    /// Nothing is broken.
    pub const KEPT: Order = Order {
        untracked: false,
        step: 1,
        hold: LEAST_HOLD,
    };

    /// For how many packets the restart bit kept its value, if they are too few.
    #[inline(always)]
    pub fn hold(self) -> Option<u8> {
        (self.hold < LEAST_HOLD).then_some(self.hold)
    }

    #[inline(always)]
    pub fn is_kept(self) -> bool {
        !self.untracked & (self.step == 1) & (self.hold == LEAST_HOLD)
    }
}

/// The first 1,024 streams, in a table that is searched from the slot that a stream is hashed to.
pub struct Tracker {
    slots: Box<[Stream; SLOTS]>,
    tracked: usize,
}

impl Tracker {
    pub fn new() -> Self {
        let unused = Stream {
            id: 0,
            subtype: UNUSED,
            seq: 0,
            mr: false,
            held: 0,
        };
        Tracker {
            slots: Box::new([unused; SLOTS]),
            tracked: 0,
        }
    }

    /// How many streams are tracked.
    pub fn tracked(&self) -> usize {
        self.tracked
    }

    /// Notes a packet, and returns the rules that it breaks.
    #[inline(always)]
    pub fn note(&mut self, subtype: u8, id: u64, seq: u8, mr: bool) -> Order {
        let mut at = slot_of(subtype, id);
        loop {
            let stream = &mut self.slots[at];
            if stream.id == id && stream.subtype == subtype {
                return stream.follow(seq, mr);
            }
            if stream.subtype == UNUSED {
                return self.begin(at, subtype, id, seq, mr);
            }
            at = (at + 1) % SLOTS;
        }
    }

    /// Tracks a stream from its first packet on, in an unused slot, if there is room for it.
    #[cold]
    #[inline(never)]
    fn begin(&mut self, at: usize, subtype: u8, id: u64, seq: u8, mr: bool) -> Order {
        if self.tracked == MOST {
            return Order {
                untracked: true,
                ..Order::KEPT
            };
        }
        self.tracked += 1;
        self.slots[at] = Stream {
            id,
            subtype,
            seq,
            mr,
            held: LEAST_HOLD,
        };
        Order::KEPT
    }
}

impl Stream {
    /// Notes the next packet.
    #[inline(always)]
    fn follow(&mut self, seq: u8, mr: bool) -> Order {
        let kept = mr == self.mr;
        let order = Order {
            untracked: false,
            step: seq.wrapping_sub(self.seq),
            hold: if kept { LEAST_HOLD } else { self.held },
        };
        self.seq = seq;
        self.mr = mr;
        self.held = if kept { LEAST_HOLD.min(self.held + 1) } else { 1 };
        order
    }
}

/// The slot of a stream, if no other has it: the upper bits of a product, which depend on all bits of both numbers.
#[inline(always)]
fn slot_of(subtype: u8, id: u64) -> usize {
    let key = id ^ u64::from(subtype) << 56;
    (key.wrapping_mul(0x9e37_79b9_7f4a_7c15) >> (64 - SLOT_BITS)) as usize
}
