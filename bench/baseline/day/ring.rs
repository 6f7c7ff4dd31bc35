//! A bounded queue between two threads, over atomic counts; each end keeps the other end's count as it last saw it.

use std::cell::UnsafeCell;
use std::mem::MaybeUninit;
use std::sync::atomic::{AtomicUsize, Ordering};
use std::sync::Arc;

/// A count on a cache line of its own.
#[repr(align(128))]
struct Count(AtomicUsize);

struct Ring<T> {
    pushed: Count,
    popped: Count,
    places: Box<[UnsafeCell<MaybeUninit<T>>]>,
}

// SAFETY: a place is written by the one producer before `pushed` passes it, and read by the one consumer after that.
unsafe impl<T: Send> Sync for Ring<T> {}

pub struct Producer<T> {
    ring: Arc<Ring<T>>,
    pushed: usize,
    popped: usize,
}

pub struct Consumer<T> {
    ring: Arc<Ring<T>>,
    popped: usize,
    pushed: usize,
}

pub fn ring<T: Copy>(capacity: usize) -> (Producer<T>, Consumer<T>) {
    let places = (0..capacity).map(|_| UnsafeCell::new(MaybeUninit::uninit())).collect();
    let (pushed, popped) = (Count(AtomicUsize::new(0)), Count(AtomicUsize::new(0)));
    let ring = Arc::new(Ring { pushed, popped, places });
    (Producer { ring: Arc::clone(&ring), pushed: 0, popped: 0 }, Consumer { ring, popped: 0, pushed: 0 })
}

impl<T> Ring<T> {
    // The place of the element with this number, which is below twice the capacity.
    fn place(&self, number: usize) -> &UnsafeCell<MaybeUninit<T>> {
        let capacity = self.places.len();
        &self.places[if number < capacity { number } else { number - capacity }]
    }

    // Counts go up to twice the capacity, so that a full ring and an empty one differ.
    fn after(&self, number: usize) -> usize {
        if number + 1 == 2 * self.places.len() { 0 } else { number + 1 }
    }

    fn between(&self, popped: usize, pushed: usize) -> usize {
        if pushed >= popped { pushed - popped } else { pushed + 2 * self.places.len() - popped }
    }
}

impl<T: Copy> Producer<T> {
    /// How many places are free.
    pub fn slots(&mut self) -> usize {
        self.popped = self.ring.popped.0.load(Ordering::Acquire);
        self.ring.places.len() - self.ring.between(self.popped, self.pushed)
    }

    /// Adds an element, where there is a place for it.
    pub fn push(&mut self, element: T) -> bool {
        if self.ring.between(self.popped, self.pushed) == self.ring.places.len() && self.slots() == 0 {
            return false;
        }
        // SAFETY: the place is free, and no other thread writes it.
        unsafe { (*self.ring.place(self.pushed).get()).write(element) };
        self.pushed = self.ring.after(self.pushed);
        self.ring.pushed.0.store(self.pushed, Ordering::Release);
        true
    }
}

impl<T: Copy> Consumer<T> {
    /// The oldest element, where there is one.
    pub fn pop(&mut self) -> Option<T> {
        if self.popped == self.pushed {
            self.pushed = self.ring.pushed.0.load(Ordering::Acquire);
            if self.popped == self.pushed {
                return None;
            }
        }
        // SAFETY: the place was written before `pushed` passed it, and isn't written again until `popped` does.
        let element = unsafe { (*self.ring.place(self.popped).get()).assume_init() };
        self.popped = self.ring.after(self.popped);
        self.ring.popped.0.store(self.popped, Ordering::Release);
        Some(element)
    }
}
