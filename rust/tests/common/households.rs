//! Everything that the two calls of households and sites are lent: the list and the sheet.

use super::all_pairs::{AllPairs, SHEET_K};
use super::call::{Call, Outcome};
use super::faults::Fault;
use super::inputs::{enough, no_k, no_node, some_k, some_node};
use super::inputs::{some_points, spoil_points, too_short};
use super::lent::Lent;
use super::network::OwnedNetwork;
use super::numbers::{households_number, plain_scratch_len, sheet_number};
use super::random::Random;
use super::tally::Tally;
use overlap::calls::{households, sheet, Listing};

/// All that both calls are lent.
#[derive(Clone)]
pub struct AllLent {
    pub network: OwnedNetwork,
    pub households: Vec<u8>,
    pub sites: Vec<u8>,
    pub scratch: Lent,
    pub answers: Lent,
}

impl AllLent {
    /// Arrays that are just long enough for this m and full of junk. The network is an accepted one.
    fn exact(
        network: &OwnedNetwork,
        [households, sites]: [&[u8]; 2],
        m: u32,
        random: &mut Random,
    ) -> Self {
        Self {
            network: network.clone(),
            households: households.to_vec(),
            sites: sites.to_vec(),
            scratch: Lent::junk(plain_scratch_len(network.lend(), m), random),
            answers: Lent::junk(network.starts.len() - 1, random),
        }
    }

    /// Makes scratch and answers longer at times.
    fn lengthen(mut self, random: &mut Random) -> Self {
        for array in [&mut self.scratch, &mut self.answers] {
            *array = Lent::junk(enough(array.len(), random), random);
        }
        self
    }

    /// What an accepted call leaves: "An accepted call with scratch leaves it all zero. Answer arrays
    /// hold the answer, then their old entries."
    fn accepted(&self, answer: &[u32]) -> Self {
        let mut left = self.clone();
        left.scratch = left.scratch.cleared();
        left.answers = left.answers.with_answer(answer);
        left
    }

    fn bytes(&self) -> [&[u8]; 2] {
        [&self.households, &self.sites]
    }

    fn lengths(&self) -> (usize, usize) {
        (self.scratch.len(), self.answers.len())
    }

    /// 10: "an array for answers shorter than n".
    fn shorten_answers(&mut self, random: &mut Random) {
        let n = self.network.starts.len().saturating_sub(1);
        self.answers = Lent::junk(too_short(n, random), random);
    }

    fn arrays(&self) -> Vec<(&'static str, &Lent)> {
        vec![("scratch", &self.scratch), ("answers", &self.answers)]
    }

    fn has_longer_answers(&self) -> bool {
        self.answers.len() > self.households.len()
    }

    /// The nodes with a site.
    fn with_a_site(&self) -> impl Iterator<Item = u32> + '_ {
        (0..).zip(&self.sites).filter(|of| *of.1 > 0).map(|of| of.0)
    }
}

/// Households and sites that are accepted. At times they stand on the same nodes, and at times every
/// node has a household.
fn some_bytes(network: &OwnedNetwork, random: &mut Random) -> [Vec<u8>; 2] {
    let sites = some_points(network, random);
    let households = match random.below(6) {
        0 => sites.clone(),
        1 => vec![random.pick(&[1, 1, 15]); sites.len()],
        _ => some_points(network, random),
    };
    [households, sites]
}

/// A call of the list.
#[derive(Clone)]
pub struct Households {
    pub lent: AllLent,
    pub q: u32,
    pub k: u32,
}

impl Households {
    /// A call with arrays that are just long enough and full of junk. The network is an accepted one
    /// and k at most 16.
    pub fn exact(
        network: &OwnedNetwork,
        bytes: [&[u8]; 2],
        (q, k): (u32, u32),
        random: &mut Random,
    ) -> Self {
        let lent = AllLent::exact(network, bytes, k, random);
        Self { lent, q, k }
    }

    /// "An accepted call returns number 0; a listing [...] call also the length of its list."
    pub fn accepted(&self, list: &[u32]) -> Outcome<Self> {
        let listing = Listing {
            number: 0,
            count: 0,
            length: list.len(),
        };
        let left = Self {
            lent: self.lent.accepted(list),
            ..*self
        };
        (listing, left)
    }

    fn list(&self, pairs: &AllPairs) -> Vec<u32> {
        self.list_against(&self.lent.sites, pairs)
    }

    /// The list with these sites.
    fn list_against(&self, sites: &[u8], pairs: &AllPairs) -> Vec<u32> {
        pairs.plain_households(&self.lent.households, sites, self.q, self.k)
    }

    /// Whether a node that is listed would have k sites, those on q left out, if the sites that are as
    /// far from it as q were nearer.
    fn has_ties(&self, list: &[u32], pairs: &AllPairs) -> bool {
        let mut others = self.lent.sites.clone();
        others[self.q as usize] = 0;
        list.iter().any(|&h| {
            let e = pairs.plain_distances(h)[self.q as usize] + 1;
            pairs.plain_nearest(&others, h, e, self.k).len() == self.k as usize
        })
    }

    /// The names under which things are counted.
    pub const TALLIED: [&'static str; 14] = [
        "an empty list",
        "two nodes or more",
        "a household on q",
        "a site on q",
        "several sites on q",
        "no site on q",
        "no site at all",
        "a household on another site's node",
        "a household with k sites nearer",
        "a household that can't be reached",
        "equal distances that don't count",
        "several sites that change the list",
        "several households on a listed node",
        "longer answers",
    ];
}

impl Call for Households {
    type Answer = Listing;

    const OWN_FAULTS: &'static [(u32, Fault<Self>)] = &[
        (6, |c, r| spoil_points(&mut c.lent.households, r)),
        (6, |c, r| spoil_points(&mut c.lent.sites, r)),
        (7, |c, r| c.q = no_node(&c.lent.network, r)),
        (9, |c, r| c.k = no_k(r)),
        (10, |c, r| c.lent.shorten_answers(r)),
    ];

    fn random(network: &OwnedNetwork, _: &AllPairs, random: &mut Random) -> Self {
        let [households, sites] = some_bytes(network, random);
        let asked = (some_node(network, random), some_k(random));
        let call = Self::exact(network, [&households, &sites], asked, random);
        Self {
            lent: call.lent.lengthen(random),
            ..call
        }
    }

    fn run(&mut self) -> Listing {
        let lent = &mut self.lent;
        households(
            lent.network.lend(),
            &lent.households,
            &lent.sites,
            self.q,
            self.k,
            lent.scratch.part_mut(),
            lent.answers.part_mut(),
        )
    }

    fn number(&self) -> u32 {
        let (network, asked) = (self.lent.network.lend(), (self.q, self.k));
        households_number(network, self.lent.bytes(), asked, self.lent.lengths())
    }

    fn accepted_by(&self, pairs: &AllPairs) -> Outcome<Self> {
        self.accepted(&self.list(pairs))
    }

    fn network(&self) -> &OwnedNetwork {
        &self.lent.network
    }

    fn network_mut(&mut self) -> &mut OwnedNetwork {
        &mut self.lent.network
    }

    fn points(&self) -> &[u8] {
        &self.lent.households
    }

    fn sites(&self) -> &[u8] {
        &self.lent.sites
    }

    fn m(&self) -> u32 {
        self.k
    }

    fn scratch_mut(&mut self) -> &mut Lent {
        &mut self.lent.scratch
    }

    fn arrays(&self) -> Vec<(&'static str, &Lent)> {
        self.lent.arrays()
    }

    fn asked(&self) -> String {
        format!("households, q {}, k {}", self.q, self.k)
    }

    fn tally(&self, tally: &mut Tally, pairs: &AllPairs) {
        let (list, q) = (self.list(pairs), self.q as usize);
        let (households, sites) = (&self.lent.households, &self.lent.sites);
        let single: Vec<u8> = sites.iter().map(|&byte| byte.min(1)).collect();
        let reached = |h: usize| pairs.row(self.q)[h].is_some();
        let with_households = || (0..households.len()).filter(|&h| households[h] > 0);
        let happened = [
            list.is_empty(),
            list.len() > 1,
            households[q] > 0,
            sites[q] > 0,
            sites[q] > 1,
            sites[q] == 0,
            sites.iter().all(|&byte| byte == 0),
            with_households().any(|h| h != q && sites[h] > 0),
            with_households().filter(|&h| reached(h)).count() > list.len(),
            !with_households().all(reached),
            self.has_ties(&list, pairs),
            list != self.list_against(&single, pairs),
            list.iter().any(|&h| households[h as usize] > 1),
            self.lent.has_longer_answers(),
        ];
        tally.add_k(self.k);
        for (happened, name) in happened.into_iter().zip(Self::TALLIED) {
            tally.add_if(happened, name);
        }
    }
}

/// A call of the sheet.
#[derive(Clone)]
pub struct Sheet {
    pub lent: AllLent,
}

impl Sheet {
    /// A call with arrays that are just long enough and full of junk. The network is an accepted one.
    pub fn exact(network: &OwnedNetwork, bytes: [&[u8]; 2], random: &mut Random) -> Self {
        let lent = AllLent::exact(network, bytes, 1, random);
        Self { lent }
    }

    /// "A sheet call writes, for each node, the length of the list of a site there".
    pub fn accepted(&self, entries: &[u32]) -> Outcome<Self> {
        let lent = self.lent.accepted(entries);
        (0, Self { lent })
    }

    /// The call of the list for a site of this sheet, with the sheet's k.
    pub fn list_of(&self, q: u32, random: &mut Random) -> Households {
        let AllLent { network, .. } = &self.lent;
        Households::exact(network, self.lent.bytes(), (q, SHEET_K), random)
    }

    fn entries(&self, pairs: &AllPairs) -> Vec<u32> {
        pairs.plain_sheet(&self.lent.households, &self.lent.sites)
    }

    /// The households that can reach a site.
    fn with_a_site(&self, pairs: &AllPairs) -> u32 {
        let reaches = |h: usize| self.lent.with_a_site().any(|q| pairs.row(q)[h].is_some());
        let households = self.lent.households.iter().enumerate();
        households
            .filter(|of| reaches(of.0))
            .map(|of| u32::from(*of.1))
            .sum()
    }

    /// The names under which things are counted.
    pub const TALLIED: [&'static str; 9] = [
        "no site at all",
        "a site that wins nothing",
        "a site with several households",
        "several sites on a node",
        "a household on a site's node",
        "a household that several sites count",
        "a household that reaches no site",
        "longer answers",
        "a sheet that k = 2 would change",
    ];
}

impl Call for Sheet {
    type Answer = u32;

    const OWN_FAULTS: &'static [(u32, Fault<Self>)] = &[
        (6, |c, r| spoil_points(&mut c.lent.households, r)),
        (6, |c, r| spoil_points(&mut c.lent.sites, r)),
        (10, |c, r| c.lent.shorten_answers(r)),
    ];

    fn random(network: &OwnedNetwork, _: &AllPairs, random: &mut Random) -> Self {
        let [households, sites] = some_bytes(network, random);
        let Self { lent } = Self::exact(network, [&households, &sites], random);
        Self {
            lent: lent.lengthen(random),
        }
    }

    fn run(&mut self) -> u32 {
        let lent = &mut self.lent;
        sheet(
            lent.network.lend(),
            &lent.households,
            &lent.sites,
            lent.scratch.part_mut(),
            lent.answers.part_mut(),
        )
    }

    fn number(&self) -> u32 {
        let network = self.lent.network.lend();
        sheet_number(network, self.lent.bytes(), self.lent.lengths())
    }

    fn accepted_by(&self, pairs: &AllPairs) -> Outcome<Self> {
        self.accepted(&self.entries(pairs))
    }

    fn network(&self) -> &OwnedNetwork {
        &self.lent.network
    }

    fn network_mut(&mut self) -> &mut OwnedNetwork {
        &mut self.lent.network
    }

    fn points(&self) -> &[u8] {
        &self.lent.households
    }

    fn sites(&self) -> &[u8] {
        &self.lent.sites
    }

    fn m(&self) -> u32 {
        1
    }

    fn scratch_mut(&mut self) -> &mut Lent {
        &mut self.lent.scratch
    }

    fn arrays(&self) -> Vec<(&'static str, &Lent)> {
        self.lent.arrays()
    }

    fn asked(&self) -> String {
        "sheet".to_string()
    }

    fn tally(&self, tally: &mut Tally, pairs: &AllPairs) {
        let entries = self.entries(pairs);
        let (households, sites) = (&self.lent.households, &self.lent.sites);
        let entry = |q: u32| entries[q as usize];
        let all: u32 = households.iter().map(|&byte| u32::from(byte)).sum();
        let with_a_site = self.with_a_site(pairs);
        let happened = [
            self.lent.with_a_site().next().is_none(),
            self.lent.with_a_site().any(|q| entry(q) == 0),
            self.lent.with_a_site().any(|q| entry(q) > 1),
            sites.iter().any(|&byte| byte > 1),
            self.lent.with_a_site().any(|q| households[q as usize] > 0),
            entries.iter().sum::<u32>() > with_a_site,
            with_a_site < all,
            self.lent.has_longer_answers(),
            entries != pairs.sheet_with(households, sites, 2),
        ];
        for (happened, name) in happened.into_iter().zip(Self::TALLIED) {
            tally.add_if(happened, name);
        }
    }
}
