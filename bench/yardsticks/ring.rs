//! A ring between two threads.

use std::cell::UnsafeCell;
use std::mem::swap;
use std::sync::atomic::{AtomicUsize, Ordering};

/// A ring for one thread that pushes and one that pops. Both exchange items: what a slot held before is returned, so that it can
/// be used again.
pub struct Ring<T> {
    capacity: usize,
    /// A power of two, so that a slot is found without a division.
    slots: Vec<UnsafeCell<T>>,
    pushed: Count,
    popped: Count,
}

/// A count that one thread writes and the other reads, on a cache line of its own.
#[repr(align(64))]
struct Count(AtomicUsize);

// Sound, because one thread writes a slot before it counts as pushed, and the other before it counts as popped.
unsafe impl<T: Send> Sync for Ring<T> {}

impl<T: Default> Ring<T> {
    pub fn new(capacity: usize) -> Self {
        Ring {
            capacity,
            slots: (0..capacity.next_power_of_two())
                .map(|_| UnsafeCell::default())
                .collect(),
            pushed: Count(AtomicUsize::new(0)),
            popped: Count(AtomicUsize::new(0)),
        }
    }

    pub fn capacity(&self) -> usize {
        self.capacity
    }

    /// Whether nothing waits.
    pub fn is_empty(&self) -> bool {
        self.popped.0.load(Ordering::Acquire) == self.pushed.0.load(Ordering::Acquire)
    }

    /// Exchanges the item with what a free slot holds. Says whether there is one.
    #[inline(always)]
    pub fn push(&self, item: &mut T) -> bool {
        let pushed = self.pushed.0.load(Ordering::Relaxed);
        if pushed - self.popped.0.load(Ordering::Acquire) == self.capacity {
            return false;
        }
        self.exchange(pushed, item);
        self.pushed.0.store(pushed + 1, Ordering::Release);
        true
    }

    /// Exchanges the item with the first one in the ring. Says whether there is one.
    #[inline(always)]
    pub fn pop(&self, item: &mut T) -> bool {
        let popped = self.popped.0.load(Ordering::Relaxed);
        if popped == self.pushed.0.load(Ordering::Acquire) {
            return false;
        }
        self.exchange(popped, item);
        self.popped.0.store(popped + 1, Ordering::Release);
        true
    }

    #[inline(always)]
    fn exchange(&self, count: usize, item: &mut T) {
        let slot = &self.slots[count & (self.slots.len() - 1)];
        unsafe { swap(&mut *slot.get(), item) };
    }
}
