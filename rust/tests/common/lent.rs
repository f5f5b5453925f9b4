//! Arrays that a call may write, and the route.

use super::random::Random;

/// An array that is lent as the middle part of a longer one, so that a word written outside of the
/// lent part is seen.
#[derive(Clone, PartialEq, Eq)]
pub struct Lent {
    words: Vec<u32>,
}

impl Lent {
    const MARGIN: usize = 4;

    /// An array of this length full of junk.
    pub fn junk(length: usize, random: &mut Random) -> Self {
        Self {
            words: junk(length + 2 * Self::MARGIN, random),
        }
    }

    /// An array of these words, with junk on both sides.
    pub fn of(words: &[u32], random: &mut Random) -> Self {
        Self::junk(words.len(), random).with_answer(words)
    }

    pub fn len(&self) -> usize {
        self.words.len() - 2 * Self::MARGIN
    }

    pub fn part(&self) -> &[u32] {
        &self.words[Self::MARGIN..self.words.len() - Self::MARGIN]
    }

    pub fn part_mut(&mut self) -> &mut [u32] {
        let end = self.words.len() - Self::MARGIN;
        &mut self.words[Self::MARGIN..end]
    }

    /// This array once the call has cleared it.
    pub fn cleared(mut self) -> Self {
        self.part_mut().fill(0);
        self
    }

    /// This array once the call has put its answer at the start: "Answer arrays hold the answer,
    /// then their old entries."
    pub fn with_answer(mut self, answer: &[u32]) -> Self {
        self.part_mut()[..answer.len()].copy_from_slice(answer);
        self
    }

    /// Where this array differs from the expected one, margins and all, in words.
    pub fn difference(&self, expected: &Self) -> Option<String> {
        if self == expected {
            return None;
        }
        let mut pairs = self.words.iter().zip(&expected.words);
        let at = pairs.position(|(is, wanted)| is != wanted)?;
        let (is, wanted) = (self.words[at], expected.words[at]);
        let place = at as i64 - Self::MARGIN as i64;
        Some(format!("the word {place} is {is} and not {wanted}"))
    }
}

/// Words of which none is 0, so that each 0 behind a call is the call's work.
fn junk(length: usize, random: &mut Random) -> Vec<u32> {
    match random.below(4) {
        0 => vec![u32::MAX; length],
        1 => vec![1; length],
        2 => (0..length).map(|_| random.between(1, 60)).collect(),
        _ => (0..length).map(|_| random.word().max(1)).collect(),
    }
}
