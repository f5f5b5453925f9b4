//! Everything that verify is lent.

use super::all_pairs::AllPairs;
use super::call::{Call, Outcome};
use super::faults::Fault;
use super::inputs::{enough, no_k, no_node, some_k, some_node};
use super::inputs::{some_points, spoil_points};
use super::lent::Lent;
use super::network::OwnedNetwork;
use super::numbers::verify_number;
use super::random::Random;
use super::tally::Tally;
use overlap::calls::{eager_scratch_len, verify, Verdict};

/// Everything that a call is lent.
#[derive(Clone)]
pub struct Verify {
    pub network: OwnedNetwork,
    pub points: Vec<u8>,
    pub p: u32,
    pub q: u32,
    pub k: u32,
    pub scratch: Lent,
}

/// The numbers that a call asks for: its p, q and k.
pub type Asked = (u32, u32, u32);

impl Verify {
    /// A call with scratch that is just long enough and full of junk. The network is an accepted
    /// one and k at most 16.
    pub fn exact(
        network: &OwnedNetwork,
        points: &[u8],
        (p, q, k): Asked,
        random: &mut Random,
    ) -> Self {
        Self {
            network: network.clone(),
            points: points.to_vec(),
            p,
            q,
            k,
            scratch: Lent::junk(eager_scratch_len(network.lend()), random),
        }
    }

    /// "An accepted call returns number 0". "An accepted call with scratch leaves it all zero."
    pub fn accepted(&self, yes: bool) -> Outcome<Self> {
        let mut left = self.clone();
        left.scratch = left.scratch.cleared();
        let verdict = Verdict {
            number: 0,
            yes: u32::from(yes),
        };
        (verdict, left)
    }

    /// How many other lockers are at most as far from p as q is, equal distances counted.
    fn others_not_farther(&self, pairs: &AllPairs) -> usize {
        let to_q = pairs.plain_distances(self.p)[self.q as usize];
        let e = to_q.saturating_add(1);
        let near = pairs.plain_nearest(&self.points, self.p, e, u32::MAX);
        near.len() - 1
    }
}

impl Call for Verify {
    type Answer = Verdict;

    const OWN_FAULTS: &'static [(u32, Fault<Self>)] = &[
        (6, |c, r| spoil_points(&mut c.points, r)),
        (7, |c, r| c.p = no_node(&c.network, r)),
        (7, |c, r| c.q = no_node(&c.network, r)),
        (9, |c, r| c.k = no_k(r)),
        (11, unmark),
    ];

    fn random(network: &OwnedNetwork, _: &AllPairs, random: &mut Random) -> Self {
        let mut points = some_points(network, random);
        let (p, q) = (some_node(network, random), some_node(network, random));
        if points[p as usize] == 0 {
            points[p as usize] = random.pick(&[1, 1, 2, 3, 15]);
        }
        let mut call = Self::exact(network, &points, (p, q, some_k(random)), random);
        call.scratch = Lent::junk(enough(call.scratch.len(), random), random);
        call
    }

    fn run(&mut self) -> Verdict {
        let (p, q, k) = (self.p, self.q, self.k);
        let (network, scratch) = (self.network.lend(), self.scratch.part_mut());
        verify(network, &self.points, p, q, k, scratch)
    }

    fn number(&self) -> u32 {
        let (network, scratch) = (self.network.lend(), self.scratch.len());
        verify_number(network, &self.points, self.p, self.q, self.k, scratch)
    }

    fn accepted_by(&self, pairs: &AllPairs) -> Outcome<Self> {
        self.accepted(pairs.plain_verify(&self.points, self.p, self.q, self.k))
    }

    fn network(&self) -> &OwnedNetwork {
        &self.network
    }

    fn network_mut(&mut self) -> &mut OwnedNetwork {
        &mut self.network
    }

    fn points(&self) -> &[u8] {
        &self.points
    }

    fn least_scratch(&self) -> usize {
        eager_scratch_len(self.network.lend())
    }

    fn scratch_mut(&mut self) -> &mut Lent {
        &mut self.scratch
    }

    fn arrays(&self) -> Vec<(&'static str, &Lent)> {
        vec![("scratch", &self.scratch)]
    }

    fn asked(&self) -> String {
        let (p, q, k) = (self.p, self.q, self.k);
        format!("p {p}, q {q}, k {k}")
    }

    fn tally(&self, tally: &mut Tally, pairs: &AllPairs) {
        let (p, q, k) = (self.p, self.q, self.k);
        let verdict = |p, q, k| pairs.plain_verify(&self.points, p, q, k);
        let yes = verdict(p, q, k);
        let reached = pairs.row(p)[q as usize].is_some();
        let equal = self.others_not_farther(pairs) >= k as usize;
        tally.add_k(k);
        tally.add_if(yes, "yes");
        tally.add_if(!reached, "no, as q can't be reached");
        tally.add_if(p != q && reached && !yes, "no, as k others are nearer");
        tally.add_if(p == q, "p on q");
        let companions = self.points[p as usize] > 1;
        tally.add_if(p == q && companions, "p on q, with companions");
        let mut alone = self.points.clone();
        alone[p as usize] = 1;
        let by_companions = reached && !yes && pairs.plain_verify(&alone, p, q, k);
        tally.add_if(by_companions, "no, as companions are nearer");
        tally.add_if(yes && companions, "yes, with companions");
        tally.add_if(yes && equal, "yes, as equal distances don't count");
        let without_place = yes && !verdict(p, q, k - 1);
        tally.add_if(without_place, "yes, as p doesn't count");
        tally.add_if(yes != verdict(q, p, k), "another answer from q");
    }
}

/// Takes the lockers of p away, where p has any.
fn unmark(call: &mut Verify, _: &mut Random) {
    if let Some(lockers) = call.points.get_mut(call.p as usize) {
        *lockers = 0;
    }
}
