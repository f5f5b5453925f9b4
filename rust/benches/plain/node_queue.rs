//! A binary heap in which a node waits at most once, so that n entries are enough: a shorter way to
//! a node that waits lowers its entry. The tag of an entry is its node and then its parent.
//!
//! The seat of a node is i + 1 while it waits as entry i, and 0 or a word above n while it does not.

use super::queue::{Entry, Heap};

impl Entry {
    pub fn node(self) -> usize {
        self.first()
    }

    pub fn parent(self) -> usize {
        self.second()
    }
}

/// Words behind the length are zero.
pub struct NodeQueue<'a> {
    pub seats: &'a mut [u32],
    words: &'a mut [u32],
    length: usize,
}

impl<'a> NodeQueue<'a> {
    /// The n seats and the 2 × n words of the entries are all zero.
    pub fn new(seats: &'a mut [u32], words: &'a mut [u32]) -> Self {
        Self {
            seats,
            words,
            length: 0,
        }
    }

    /// Puts in an entry, unless its node is settled or waits with a key that is no greater.
    pub fn offer(&mut self, entry: Entry) {
        let seat = self.seats[entry.node()] as usize;
        if seat > self.seats.len() {
            return;
        }
        if seat == 0 {
            self.push(entry);
        } else if entry.key() < self.entry(seat - 1).key() {
            self.rise(seat - 1, entry);
        }
    }

    /// Adds an entry whose node does not wait.
    pub fn push(&mut self, entry: Entry) {
        self.length += 1;
        self.rise(self.length - 1, entry);
    }

    /// The seat of the least entry's node is 0 behind it.
    pub fn pop(&mut self) -> Option<Entry> {
        if self.length == 0 {
            return None;
        }
        let least = self.entry(0);
        self.length -= 1;
        let last = self.entry(self.length);
        self.vacate(self.length, least.node());
        if self.length > 0 {
            self.sink(0, last);
        }
        Some(least)
    }

    /// Makes the words of the entries that wait and the seats of their nodes zero.
    pub fn clear(&mut self) {
        for index in 0..self.length {
            self.vacate(index, self.entry(index).node());
        }
        self.length = 0;
    }

    fn vacate(&mut self, index: usize, node: usize) {
        Entry::EMPTY.write(self.words, index);
        self.seats[node] = 0;
    }
}

impl Heap for NodeQueue<'_> {
    fn length(&self) -> usize {
        self.length
    }

    fn entry(&self, index: usize) -> Entry {
        Entry::read(self.words, index)
    }

    fn put(&mut self, index: usize, entry: Entry) {
        entry.write(self.words, index);
        self.seats[entry.node()] = index as u32 + 1;
    }
}
