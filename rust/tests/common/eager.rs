//! Everything that eager and the short query are lent.

use super::all_pairs::AllPairs;
use super::call::{Answer, Call, Outcome};
use super::faults::Fault;
use super::inputs::{enough, no_k, no_node, some_node, some_points, spoil_points, too_short};
use super::lent::Lent;
use super::network::OwnedNetwork;
use super::random::Random;
use super::rows::Row;
use super::site::Site;
use super::tally::Tally;
use overlap::calls::{eager, short_query, Listing, Network};

/// The form of eager: its network, points, q, k, limit, scratch, answers and visits.
pub type EagerCall =
    fn(Network<'_>, &[u8], u32, u32, u32, &mut [u32], &mut [u32], &mut [u32]) -> Listing;

/// Everything that a call is lent.
#[derive(Clone)]
pub struct Eager {
    pub site: Site,
    pub limit: u32,
    pub visits: Lent,
}

/// The numbers that a call asks for: its q, k and limit.
pub type Asked = (u32, u32, u32);

impl Eager {
    /// A call with arrays that are just long enough and full of junk. The network is an accepted
    /// one and k at most 16.
    pub fn exact(
        network: &OwnedNetwork,
        points: &[u8],
        (q, k, limit): Asked,
        random: &mut Random,
    ) -> Self {
        let site = Site::exact_eager(network, points, (q, k), random);
        Self::of(site, limit, random)
    }

    /// A call for this site, with an array for visits that is just long enough.
    pub fn of(site: Site, limit: u32, random: &mut Random) -> Self {
        let visits = Lent::junk(site.nodes(), random);
        Self {
            site,
            limit,
            visits,
        }
    }

    /// "It [...] returns the list and the count of nodes expanded." Ask 4: "Eager also lists the
    /// nodes that its count counts".
    pub fn accepted(&self, list: &[u32], visits: &[u32]) -> Outcome<Self> {
        let (listing, site) = self.site.accepted(list, visits.len() as u32);
        let left = Self {
            site,
            limit: self.limit,
            visits: self.visits.clone().with_answer(visits),
        };
        (listing, left)
    }

    /// Lends everything to eager, or to a call of its form; the arrays are then what it leaves.
    pub fn run_by(&mut self, call: EagerCall) -> Listing {
        let site = &mut self.site;
        call(
            site.network.lend(),
            &site.points,
            site.q,
            site.k,
            self.limit,
            site.scratch.part_mut(),
            site.answers.part_mut(),
            self.visits.part_mut(),
        )
    }

    /// The first condition met of 1 to 7, 9 and 10, or 0. Ask 4: "10 if the new list's array is
    /// shorter than n."
    fn number_but_12(&self) -> u32 {
        match self.site.number() {
            0 if self.visits.len() < self.site.nodes() => 10,
            number => number,
        }
    }

    /// This call with an array for visits of this length, full of junk.
    pub fn with_visits(&self, length: usize, random: &mut Random) -> Self {
        let mut call = self.clone();
        call.visits = Lent::junk(length, random);
        call
    }

    /// The names under which things are counted, beyond those of the site.
    pub const TALLIED: [&'static str; 5] = [
        "a limit of just the count",
        "visits of just n places",
        "longer visits",
        "visits that do not rise by node",
        "visits at equal distances",
    ];
}

/// Whether two of the visits are equally far from the site, whose row is given.
pub fn has_ties(row: &Row, visits: &[u32]) -> bool {
    let far = |m: u32| row[m as usize];
    visits.windows(2).any(|two| far(two[0]) == far(two[1]))
}

impl Call for Eager {
    type Answer = Listing;

    const OWN_FAULTS: &'static [(u32, Fault<Self>)] = &[
        (6, |c, r| spoil_points(&mut c.site.points, r)),
        (7, |c, r| c.site.q = no_node(&c.site.network, r)),
        (9, |c, r| c.site.k = no_k(r)),
        (10, |c, r| c.site.shorten_answers(r)),
        (10, shorten_visits),
        (12, lower_limit),
    ];

    fn random(network: &OwnedNetwork, pairs: &AllPairs, random: &mut Random) -> Self {
        let site = Site::random_eager(network, random);
        let expanded = site.expanded(pairs);
        let limit = random.pick(&[expanded, expanded, expanded + 1, 65_535, u32::MAX]);
        let places = enough(site.nodes(), random);
        Self::of(site, limit, random).with_visits(places, random)
    }

    fn run(&mut self) -> Listing {
        self.run_by(eager)
    }

    fn number(&self) -> u32 {
        let expanded = || self.site.expanded(&AllPairs::of(self.site.network.lend()));
        match self.number_but_12() {
            0 if expanded() > self.limit => 12,
            number => number,
        }
    }

    fn accepted_by(&self, pairs: &AllPairs) -> Outcome<Self> {
        self.accepted(&self.site.list(pairs), &self.site.visits(pairs))
    }

    fn network(&self) -> &OwnedNetwork {
        &self.site.network
    }

    fn network_mut(&mut self) -> &mut OwnedNetwork {
        &mut self.site.network
    }

    fn points(&self) -> &[u8] {
        &self.site.points
    }

    fn least_scratch(&self) -> usize {
        self.site.least_scratch()
    }

    fn scratch_mut(&mut self) -> &mut Lent {
        &mut self.site.scratch
    }

    fn arrays(&self) -> Vec<(&'static str, &Lent)> {
        let mut arrays = self.site.arrays();
        arrays.push(("visits", &self.visits));
        arrays
    }

    fn asked(&self) -> String {
        let (q, k, limit) = (self.site.q, self.site.k, self.limit);
        format!("q {q}, k {k}, limit {limit}")
    }

    fn tally(&self, tally: &mut Tally, pairs: &AllPairs) {
        self.site.tally(tally, pairs);
        let visits = self.site.visits(pairs);
        let (n, places) = (self.site.nodes(), self.visits.len());
        let happened = [
            self.limit as usize == visits.len(),
            places == n,
            places > n,
            !visits.is_sorted(),
            has_ties(pairs.row(self.site.q), &visits),
        ];
        for (happened, name) in happened.into_iter().zip(Self::TALLIED) {
            tally.add_if(happened, name);
        }
    }

    /// "A refusal [...] changes no buffer; 12 alone leaves the scratch all zero."
    fn refused(&self, number: u32) -> Outcome<Self> {
        let mut left = self.clone();
        if number == 12 {
            left.site.scratch = left.site.scratch.cleared();
        }
        (Listing::refusal(number), left)
    }
}

/// 10: "the new list's array is shorter than n."
fn shorten_visits(call: &mut Eager, random: &mut Random) {
    let length = too_short(call.site.nodes(), random);
    *call = call.with_visits(length, random);
}

/// Lowers the limit below the count, often just below. A call with another fault gets limit 0.
fn lower_limit(call: &mut Eager, random: &mut Random) {
    let expanded = match call.number_but_12() {
        0 => call.site.expanded(&AllPairs::of(call.site.network.lend())),
        _ => 1,
    };
    call.limit = random.pick(&[expanded - 1, expanded - 1, expanded / 2, 0]);
}

/// "The short query: no k and no limit; eager with [...] limit 65,535." No count is above this limit.
/// Ask 10: "The short query takes k = 2 from now on."
pub const SHORT_K: u32 = 2;

/// A call of the short query. Ask 4: eager lists visits, "the short query doesn't".
#[derive(Clone)]
pub struct Short(Site);

impl Short {
    /// A call with arrays that are just long enough and full of junk. The network is an accepted
    /// one.
    pub fn exact(network: &OwnedNetwork, points: &[u8], q: u32, random: &mut Random) -> Self {
        Self(Site::exact_eager(network, points, (q, SHORT_K), random))
    }

    pub fn accepted(&self, list: &[u32], count: u32) -> Outcome<Self> {
        let (listing, left) = self.0.accepted(list, count);
        (listing, Self(left))
    }

    /// The names under which things are counted, beyond those of the site.
    pub const TALLIED: [&'static str; 2] = [
        "a list that k = 1 would change",
        "a count that k = 1 would change",
    ];
}

impl Call for Short {
    type Answer = Listing;

    const OWN_FAULTS: &'static [(u32, Fault<Self>)] = &[
        (6, |c, r| spoil_points(&mut c.0.points, r)),
        (7, |c, r| c.0.q = no_node(&c.0.network, r)),
        (10, |c, r| c.0.shorten_answers(r)),
    ];

    fn random(network: &OwnedNetwork, _: &AllPairs, random: &mut Random) -> Self {
        let (points, q) = (some_points(network, random), some_node(network, random));
        let Self(site) = Self::exact(network, &points, q, random);
        Self(site.lengthen(random))
    }

    fn run(&mut self) -> Listing {
        let site = &mut self.0;
        let (scratch, answers) = (site.scratch.part_mut(), site.answers.part_mut());
        short_query(site.network.lend(), &site.points, site.q, scratch, answers)
    }

    fn number(&self) -> u32 {
        self.0.number()
    }

    fn accepted_by(&self, pairs: &AllPairs) -> Outcome<Self> {
        self.accepted(&self.0.list(pairs), self.0.expanded(pairs))
    }

    fn network(&self) -> &OwnedNetwork {
        &self.0.network
    }

    fn network_mut(&mut self) -> &mut OwnedNetwork {
        &mut self.0.network
    }

    fn points(&self) -> &[u8] {
        &self.0.points
    }

    fn least_scratch(&self) -> usize {
        self.0.least_scratch()
    }

    fn scratch_mut(&mut self) -> &mut Lent {
        &mut self.0.scratch
    }

    fn arrays(&self) -> Vec<(&'static str, &Lent)> {
        self.0.arrays()
    }

    fn asked(&self) -> String {
        format!("q {}", self.0.q)
    }

    fn tally(&self, tally: &mut Tally, pairs: &AllPairs) {
        let site = &self.0;
        site.tally(tally, pairs);
        let mut by_one = site.clone();
        by_one.k = 1;
        let happened = [
            site.list(pairs) != by_one.list(pairs),
            site.expanded(pairs) != by_one.expanded(pairs),
        ];
        for (happened, name) in happened.into_iter().zip(Self::TALLIED) {
            tally.add_if(happened, name);
        }
    }
}
