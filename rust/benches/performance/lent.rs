//! The arrays that calls are lent. It knows no call: `calls.rs` stands on it.

use overlap::calls::{scratch_len, Network, TableMut};

/// All that a call is lent.
pub struct Lent<'a> {
    pub network: Network<'a>,
    /// K.
    pub places: u32,
    pub written: Written,
    pub scratch: Scratch,
    /// The sites that compete for them are the points.
    pub households: Vec<u8>,
    /// A rival's table, whatever it holds.
    pub rival_ids: Vec<u32>,
    pub rival_distances: Vec<u32>,
}

/// What a call may write beside scratch.
#[derive(Clone)]
pub struct Written {
    pub points: Vec<u8>,
    pub ids: Vec<u32>,
    pub distances: Vec<u32>,
    pub answers: Vec<u32>,
    pub answer_distances: Vec<u32>,
    /// Eager's.
    pub visits: Vec<u32>,
}

/// Scratch for several m; a call is lent the first words of it.
pub struct Scratch {
    words: Vec<u32>,
    /// How many words a call is lent beyond those that it asks for.
    pub more: isize,
    /// How many words the last call was lent.
    lent: usize,
}

/// What stands in scratch before a call, and in the other arrays before the first one.
pub const OLD: u32 = 1;

impl Scratch {
    fn new(words: usize) -> Self {
        Self {
            words: vec![OLD; words],
            more: 0,
            lent: 0,
        }
    }

    /// The words of a call that asks for S with this m.
    pub fn of(&mut self, network: Network<'_>, m: u32) -> &mut [u32] {
        self.of_length(scratch_len(network, m as usize))
    }

    /// The words of a call that asks for so many, as far as there are so many.
    pub fn of_length(&mut self, asked: usize) -> &mut [u32] {
        let words = asked.saturating_add_signed(self.more);
        self.lent = words.min(self.words.len());
        &mut self.words[..self.lent]
    }

    /// Old entries everywhere.
    pub fn make_old(&mut self) {
        self.words.fill(OLD);
        self.lent = 0;
    }

    /// The word that the last call left in all that it was lent, if that is any. Two builds may be
    /// lent different lengths, so it is this that is compared.
    pub fn left(&self) -> Option<u32> {
        let (lent, rest) = self.words.split_at(self.lent);
        assert!(rest.iter().all(|&word| word == OLD), "it wrote behind");
        assert!(lent.iter().all(|&word| word == lent[0]), "it left a part");
        lent.first().copied()
    }
}

impl Written {
    /// The points, and the table that belongs to them.
    pub fn points_and_table(&mut self, places: u32) -> (&mut [u8], TableMut<'_>) {
        let table = TableMut {
            places,
            ids: &mut self.ids,
            distances: &mut self.distances,
        };
        (&mut self.points, table)
    }

    /// Whether these two left the same in each array, the visits compared or not.
    pub fn is_same(&self, other: &Self, with_visits: bool) -> bool {
        self.points == other.points && self.words(with_visits).eq(other.words(with_visits))
    }

    /// The arrays of words, with the visits or without.
    fn words(&self, with_visits: bool) -> impl Iterator<Item = &Vec<u32>> {
        let Self {
            points: _,
            ids,
            distances,
            answers,
            answer_distances,
            visits,
        } = self;
        let others = [ids, distances, answers, answer_distances];
        others.into_iter().chain(with_visits.then_some(visits))
    }

    /// Makes points and table those of another.
    fn take_table_of(&mut self, other: &Self) {
        self.points.clone_from(&other.points);
        self.ids.clone_from(&other.ids);
        self.distances.clone_from(&other.distances);
    }
}

impl<'a> Lent<'a> {
    /// Arrays with old entries, of the lengths that document 01 asks for a call with this K and an m
    /// up to the one given, and a household on every node.
    pub fn new(network: Network<'a>, points: &[u8], places: u32, most_m: u32) -> Self {
        let (n, entries) = (points.len(), points.len() * places as usize);
        let written = Written {
            points: points.to_vec(),
            ids: vec![OLD; entries],
            distances: vec![OLD; entries],
            answers: vec![OLD; n.max(17)],
            answer_distances: vec![OLD; n.max(17)],
            visits: vec![OLD; n],
        };
        Self {
            network,
            places,
            written,
            scratch: Scratch::new(scratch_len(network, most_m as usize)),
            households: vec![1; n],
            rival_ids: vec![OLD; entries],
            rival_distances: vec![OLD; entries],
        }
    }

    /// Brings points and table back to what they were.
    pub fn restore(&mut self, before: &Written) {
        self.written.take_table_of(before);
    }
}
