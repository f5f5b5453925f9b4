//! Scratch, answers and visits that are allocated once and lent to each call.

use crate::Network;
use std::fmt;

/// Document 01 has no k above 16 and no K above 17. A call with a larger one is refused by 9 or 8
/// before its scratch is looked at, so no more than S for 17 is ever allocated.
const MOST: u32 = 17;

/// The words of scratch that a call asks for.
#[derive(Clone, Copy)]
pub(crate) enum Words {
    /// S, for the m of the call.
    S(u32),
    /// 12 × n, for eager, verify and the short query.
    Eager,
}

impl Words {
    fn on(self, network: &Network) -> usize {
        match self {
            Self::S(m) => network.scratch_len(m.min(MOST)),
            Self::Eager => network.eager_scratch_len(),
        }
    }
}

#[derive(Default)]
pub(crate) struct Buffers {
    scratch: Vec<u32>,
    answers: Vec<u32>,
    visits: Vec<u32>,
}

impl Buffers {
    /// Scratch of the words that a call asks for, no more, since a call clears all that it is lent.
    pub(crate) fn scratch(&mut self, network: &Network, words: Words) -> &mut [u32] {
        self.both(network, words).0
    }

    /// Scratch, and n places for answers.
    pub(crate) fn both(&mut self, network: &Network, words: Words) -> (&mut [u32], &mut [u32]) {
        let length = self.allocate(network, words);
        (&mut self.scratch[..length], &mut self.answers)
    }

    /// Eager's scratch, n places for answers and n for visits.
    pub(crate) fn of_eager(&mut self, network: &Network) -> [&mut [u32]; 3] {
        let length = self.allocate(network, Words::Eager);
        self.visits.resize(network.nodes() as usize, 0);
        [
            &mut self.scratch[..length],
            &mut self.answers,
            &mut self.visits,
        ]
    }

    /// Makes scratch and answers long enough and returns the words of scratch that the call asks for.
    fn allocate(&mut self, network: &Network, words: Words) -> usize {
        let length = words.on(network);
        if self.scratch.len() < length {
            self.scratch = vec![0; length];
        }
        self.answers.resize(network.nodes() as usize, 0);
        length
    }

    /// The first answers of the last call.
    pub(crate) fn answers(&self, length: usize) -> &[u32] {
        &self.answers[..length]
    }

    /// The first visits of the last call of eager.
    pub(crate) fn visits(&self, count: u32) -> &[u32] {
        &self.visits[..count as usize]
    }
}

/// The lengths alone, as scratch is long and between calls says nothing.
impl fmt::Debug for Buffers {
    fn fmt(&self, f: &mut fmt::Formatter<'_>) -> fmt::Result {
        let mut buffers = f.debug_struct("Buffers");
        buffers.field("scratch_len", &self.scratch.len());
        buffers.field("answers_len", &self.answers.len());
        buffers.field("visits_len", &self.visits.len());
        buffers.finish()
    }
}

/// A clone starts without buffers, as nothing in them outlives a call.
impl Clone for Buffers {
    fn clone(&self) -> Self {
        Self::default()
    }
}
