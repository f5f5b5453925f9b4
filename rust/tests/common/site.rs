//! Everything that a search for a site is lent, whichever search it is.

use super::all_pairs::AllPairs;
use super::inputs::{enough, some_k, some_node, some_points, too_short};
use super::lent::Lent;
use super::network::OwnedNetwork;
use super::numbers::{search_number, Least, LEAST_OF_EAGER, LEAST_OF_LAZY};
use super::random::Random;
use super::tally::Tally;
use overlap::calls::{eager, Listing, Network};

/// The form of a search without a limit: its network, points, q, k, scratch and answers.
pub type SearchCall<Answer = Listing> =
    fn(Network<'_>, &[u8], u32, u32, &mut [u32], &mut [u32]) -> Answer;

/// Eager with a limit that is never met and visits that nobody reads.
pub const EAGER: SearchCall = |n, points, q, k, s, a| {
    let mut visits = vec![0; points.len()];
    eager(n, points, q, k, 65_535, s, a, &mut visits)
};

#[derive(Clone)]
pub struct Site {
    pub network: OwnedNetwork,
    pub points: Vec<u8>,
    pub q: u32,
    pub k: u32,
    pub scratch: Lent,
    pub answers: Lent,
    least: Least,
}

impl Site {
    /// For lazy, lazy-EP and the table query: arrays that are just long enough and full of junk. The
    /// network is an accepted one and k at most 16.
    pub fn exact(
        network: &OwnedNetwork,
        points: &[u8],
        asked: (u32, u32),
        random: &mut Random,
    ) -> Self {
        Self::with(LEAST_OF_LAZY, network, points, asked, random)
    }

    /// The same for eager and the short query.
    pub fn exact_eager(
        network: &OwnedNetwork,
        points: &[u8],
        asked: (u32, u32),
        random: &mut Random,
    ) -> Self {
        Self::with(LEAST_OF_EAGER, network, points, asked, random)
    }

    fn with(
        least: Least,
        network: &OwnedNetwork,
        points: &[u8],
        (q, k): (u32, u32),
        random: &mut Random,
    ) -> Self {
        Self {
            network: network.clone(),
            points: points.to_vec(),
            q,
            k,
            scratch: Lent::junk(least(network.lend(), k), random),
            answers: Lent::junk(network.starts.len() - 1, random),
            least,
        }
    }

    /// This site for eager, with arrays that are just long enough.
    pub fn for_eager(&self, random: &mut Random) -> Self {
        Self::exact_eager(&self.network, &self.points, (self.q, self.k), random)
    }

    /// Makes scratch and answers longer at times.
    pub fn lengthen(mut self, random: &mut Random) -> Self {
        for array in [&mut self.scratch, &mut self.answers] {
            *array = Lent::junk(enough(array.len(), random), random);
        }
        self
    }

    /// Any points, site and k that are accepted, with arrays that are long enough for lazy, lazy-EP
    /// and the table query, and so for all searches.
    pub fn random(network: &OwnedNetwork, random: &mut Random) -> Self {
        let (points, asked) = some_asked(network, random);
        Self::exact(network, &points, asked, random).lengthen(random)
    }

    /// The same with arrays that are long enough for eager and the short query.
    pub fn random_eager(network: &OwnedNetwork, random: &mut Random) -> Self {
        let (points, asked) = some_asked(network, random);
        Self::exact_eager(network, &points, asked, random).lengthen(random)
    }

    /// Lends everything to a search; the arrays are then what it leaves.
    pub fn run<Answer>(&mut self, call: SearchCall<Answer>) -> Answer {
        let (scratch, answers) = (self.scratch.part_mut(), self.answers.part_mut());
        let (network, points) = (self.network.lend(), &self.points);
        call(network, points, self.q, self.k, scratch, answers)
    }

    /// What an accepted call returns and leaves: "An accepted call returns number 0; a listing [...]
    /// call also the length of its list." "An accepted call with scratch leaves it all zero. Answer
    /// arrays hold the answer, then their old entries."
    pub fn accepted(&self, list: &[u32], count: u32) -> (Listing, Self) {
        let listing = Listing {
            number: 0,
            count,
            length: list.len(),
        };
        let mut left = self.clone();
        left.scratch = left.scratch.cleared();
        left.answers = left.answers.with_answer(list);
        (listing, left)
    }

    /// The first condition met of 1 to 7, 9 and 10, or 0.
    pub fn number(&self) -> u32 {
        let (network, asked) = (self.network.lend(), (self.q, self.k));
        let lengths = (self.scratch.len(), self.answers.len());
        search_number(network, &self.points, asked, self.least, lengths)
    }

    /// The least length of scratch, also for a k that 9 refuses.
    pub fn least_scratch(&self) -> usize {
        (self.least)(self.network.lend(), self.k.min(16))
    }

    pub fn list(&self, pairs: &AllPairs) -> Vec<u32> {
        pairs.plain_listed(&self.points, self.q, self.k)
    }

    pub fn expanded(&self, pairs: &AllPairs) -> u32 {
        pairs.plain_expanded(&self.points, self.q, self.k)
    }

    pub fn visits(&self, pairs: &AllPairs) -> Vec<u32> {
        pairs.plain_visits(&self.points, self.q, self.k)
    }

    /// n of any arrays.
    pub fn nodes(&self) -> usize {
        self.network.starts.len().saturating_sub(1)
    }

    /// 10: "an array for answers shorter than n".
    pub fn shorten_answers(&mut self, random: &mut Random) {
        self.answers = Lent::junk(too_short(self.nodes(), random), random);
    }

    pub fn arrays(&self) -> Vec<(&'static str, &Lent)> {
        vec![("scratch", &self.scratch), ("answers", &self.answers)]
    }

    /// This call with one locker on each node that has several.
    fn with_single_lockers(&self) -> Self {
        let mut site = self.clone();
        site.points = self.points.iter().map(|&lockers| lockers.min(1)).collect();
        site
    }

    /// Counts what makes the call telling.
    pub fn tally(&self, tally: &mut Tally, pairs: &AllPairs) {
        let list = self.list(pairs);
        let reached = pairs.row(self.q).iter().flatten().count() as u32;
        let marked = self.points.iter().filter(|&&byte| byte > 0).count();
        let single = self.with_single_lockers();
        let has_several = |&p: &u32| self.points[p as usize] > 1;
        let happened = [
            self.expanded(pairs) < reached,
            list.is_empty(),
            list.len() > 1,
            list.len() < marked,
            self.points[self.q as usize] > 0,
            self.points[self.q as usize] > 1,
            self.answers.len() > self.points.len(),
            list != single.list(pairs),
            list.iter().any(has_several),
            self.expanded(pairs) != single.expanded(pairs),
        ];
        tally.add_k(self.k);
        for (happened, name) in happened.into_iter().zip(Self::TALLIED) {
            tally.add_if(happened, name);
        }
    }

    /// The names under which things are counted.
    pub const TALLIED: [&'static str; 10] = [
        "a node with k points nearer than q",
        "an empty list",
        "two points or more",
        "a point that is not listed",
        "a point on q",
        "several lockers on q",
        "longer answers",
        "several lockers that change the list",
        "a node with several lockers that is listed",
        "several lockers that change the count",
    ];
}

/// Any points, site and k that are accepted.
fn some_asked(network: &OwnedNetwork, random: &mut Random) -> (Vec<u8>, (u32, u32)) {
    let (points, q) = (some_points(network, random), some_node(network, random));
    (points, (q, some_k(random)))
}
