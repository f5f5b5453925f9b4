//! A binary heap in lent words, with the least entry first. An entry is two words, a tag of two
//! numbers below 65,536 and a distance: those of its key, the lower one first, as the engine has
//! them.

#[derive(Clone, Copy)]
pub struct Entry {
    pub distance: u32,
    tag: u32,
}

impl Entry {
    /// The words of a place where no entry stands.
    pub const EMPTY: Self = Self {
        distance: 0,
        tag: 0,
    };

    pub fn new(distance: u32, first: u32, second: u32) -> Self {
        Self {
            distance,
            tag: first * 65_536 + second,
        }
    }

    /// The first number of the tag.
    pub fn first(self) -> usize {
        (self.tag / 65_536) as usize
    }

    /// The second number of the tag.
    pub fn second(self) -> usize {
        (self.tag % 65_536) as usize
    }

    /// The number by which entries are ordered.
    pub fn key(self) -> u64 {
        u64::from(self.distance) << 32 | u64::from(self.tag)
    }

    pub fn read(words: &[u32], index: usize) -> Self {
        Self {
            tag: words[2 * index],
            distance: words[2 * index + 1],
        }
    }

    pub fn write(self, words: &mut [u32], index: usize) {
        words[2 * index] = self.tag;
        words[2 * index + 1] = self.distance;
    }
}

/// The steps of a heap, which are the same whether its entries have seats or not.
pub trait Heap {
    fn length(&self) -> usize;

    fn entry(&self, index: usize) -> Entry;

    fn put(&mut self, index: usize, entry: Entry);

    /// Carries the entry up from the hole and stores it once, in its final place.
    fn rise(&mut self, mut hole: usize, entry: Entry) {
        while hole > 0 {
            let above = (hole - 1) / 2;
            let parent = self.entry(above);
            if parent.key() <= entry.key() {
                break;
            }
            self.put(hole, parent);
            hole = above;
        }
        self.put(hole, entry);
    }

    /// Carries the entry down from the hole and stores it once, in its final place.
    fn sink(&mut self, mut hole: usize, entry: Entry) {
        while let Some(child) = self.least_child(hole) {
            let below = self.entry(child);
            if entry.key() <= below.key() {
                break;
            }
            self.put(hole, below);
            hole = child;
        }
        self.put(hole, entry);
    }

    fn least_child(&self, index: usize) -> Option<usize> {
        let left = 2 * index + 1;
        if left >= self.length() {
            None
        } else if left + 1 < self.length() && self.entry(left + 1).key() < self.entry(left).key() {
            Some(left + 1)
        } else {
            Some(left)
        }
    }
}

/// Words behind the length are zero.
pub struct Queue<'a> {
    words: &'a mut [u32],
    length: usize,
}

impl<'a> Queue<'a> {
    /// The words are all zero.
    pub fn new(words: &'a mut [u32]) -> Self {
        Self { words, length: 0 }
    }

    pub fn has_room(&self) -> bool {
        self.length < self.words.len() / 2
    }

    /// The least distance that waits.
    pub fn least(&self) -> Option<u32> {
        (self.length > 0).then(|| self.words[1])
    }

    pub fn push(&mut self, entry: Entry) {
        self.length += 1;
        self.rise(self.length - 1, entry);
    }

    pub fn pop(&mut self) -> Option<Entry> {
        if self.length == 0 {
            return None;
        }
        let least = self.entry(0);
        self.length -= 1;
        let last = self.entry(self.length);
        self.put(self.length, Entry::EMPTY);
        if self.length > 0 {
            self.sink(0, last);
        }
        Some(least)
    }
}

impl Heap for Queue<'_> {
    fn length(&self) -> usize {
        self.length
    }

    fn entry(&self, index: usize) -> Entry {
        Entry::read(self.words, index)
    }

    fn put(&mut self, index: usize, entry: Entry) {
        entry.write(self.words, index);
    }
}
