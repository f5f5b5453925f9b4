//! What the lists of all sites and the column of a sheet add up to, compared with Ask 13 of document 02.

mod common;

use common::all_pairs::{counted, AllPairs};
use common::call::Call;
use common::households::{Households, Sheet};
use common::inputs::some_points;
use common::largest::{largest_grid, several_on_each, MOST_NODES};
use common::network::{network_n, OwnedNetwork};
use common::random::Random;
use common::rows::{relaxed_row, Row};
use common::shapes::{random_network, try_all_small_points, weight_by_product, weighted};
use common::tally::Tally;
use std::collections::BTreeSet;
use std::iter::repeat_n;
use std::ops::Range;

/// The nodes where some stand, with how many.
fn present(bytes: &[u8]) -> impl Iterator<Item = (u32, u64)> + '_ {
    let nodes = (0..).zip(bytes).map(|(node, &byte)| (node, byte.into()));
    nodes.filter(|of: &(u32, u64)| of.1 > 0)
}

/// A node with households, how many they are, and the sites that they can reach: the distance and the
/// node of each, in order, "several at one node each counted".
struct Home {
    node: u32,
    households: u64,
    sites: Vec<(u64, u32)>,
}

impl Home {
    /// The home at this node, from the rows of the nodes with a site: roads run both ways.
    fn new((node, households): (u32, u64), rows: &[(u32, u64, Row)]) -> Self {
        let reached = rows.iter().filter_map(|(q, there, row)| {
            Some(repeat_n((row[node as usize]?, *q), *there as usize))
        });
        let mut sites: Vec<_> = reached.flatten().collect();
        sites.sort_unstable();
        Self {
            node,
            households,
            sites,
        }
    }

    /// The number of sites that are strictly nearer.
    fn nearer(&self, distance: u64) -> usize {
        self.sites.partition_point(|site| site.0 < distance)
    }

    /// How many lists a household here stands on. Ask 1: it is listed for a site if "fewer than k sites
    /// are strictly nearer to it".
    fn lists(&self, k: u32) -> u64 {
        let on_list = |site: &&(u64, u32)| self.nearer(site.0) < k as usize;
        self.sites.iter().filter(on_list).count() as u64
    }

    /// Whether "its k-th and next nearest sites" are there and equally near.
    fn has_tie(&self, k: u32) -> bool {
        let k = k as usize;
        self.sites.len() > k && self.sites[k - 1].0 == self.sites[k].0
    }

    /// Sees that this is how many lists a household here stands on: "at least the smaller of k and r
    /// lists, and on exactly that many if and only if r is at most k or its k-th and next nearest sites
    /// are at different distances."
    fn assert_lists(&self, k: u32, lists: u64) {
        let least = self.sites.len().min(k as usize) as u64;
        let story = || format!("node {}, k {k}, sites {:?}", self.node, self.sites);
        assert!(lists >= least, "{}", story());
        assert_eq!(lists == least, !self.has_tie(k), "{}", story());
        assert_eq!(lists, self.lists(k), "{}", story());
    }

    /// The names under which things are counted.
    const TALLIED: [&'static str; 6] = [
        "a tie of several nodes",
        "a tie at one node",
        "the k-th and next at different distances",
        "exactly k sites",
        "fewer than k sites",
        "several households on a node",
    ];

    fn tally(&self, k: u32, tally: &mut Tally) {
        let (sites, is_tie) = (&self.sites, self.has_tie(k));
        let of_tie = sites.get(k as usize).map(|next| {
            let as_far = sites.iter().filter(|site| site.0 == next.0);
            as_far.map(|site| site.1).collect::<BTreeSet<_>>().len()
        });
        let happened = [
            is_tie && of_tie > Some(1),
            is_tie && of_tie == Some(1),
            !is_tie && of_tie.is_some(),
            sites.len() == k as usize,
            sites.len() < k as usize,
            self.households > 1,
        ];
        for (happened, name) in happened.into_iter().zip(Self::TALLIED) {
            tally.add_if(happened, name);
        }
    }
}

/// A network with households and sites.
struct Case {
    network: OwnedNetwork,
    households: Vec<u8>,
    sites: Vec<u8>,
    homes: Vec<Home>,
}

impl Case {
    fn new(network: &OwnedNetwork, bytes: [&[u8]; 2], row: impl Fn(u32) -> Row) -> Self {
        let [households, sites] = bytes.map(<[u8]>::to_vec);
        let rows: Vec<_> = present(&sites)
            .map(|(q, there)| (q, there, row(q)))
            .collect();
        let homes = present(&households).map(|home| Home::new(home, &rows));
        Self {
            network: network.clone(),
            homes: homes.collect(),
            households,
            sites,
        }
    }

    /// On a small network, by all pairs.
    fn small(network: &OwnedNetwork, bytes: [&[u8]; 2]) -> Self {
        let pairs = AllPairs::of(network.lend());
        Self::new(network, bytes, |q| pairs.row(q).clone())
    }

    /// "the number of lists that each household stands on, added over all households."
    fn all_lists(&self, k: u32) -> u64 {
        let lists = self
            .homes
            .iter()
            .map(|home| home.households * home.lists(k));
        lists.sum()
    }

    /// The engine's sheet.
    fn sheet(&self, random: &mut Random) -> Vec<u32> {
        let mut call = Sheet::exact(&self.network, [&self.households, &self.sites], random);
        assert_eq!(call.run(), 0);
        call.lent.answers.part().to_vec()
    }

    /// "the sum of a sheet's column, each entry taken once for each site there", of the engine's.
    fn column(&self, random: &mut Random) -> u64 {
        let entries = self.sheet(random);
        let taken = present(&self.sites).map(|(q, there)| there * u64::from(entries[q as usize]));
        taken.sum()
    }

    /// The engine's list for a site.
    fn list(&self, q: u32, k: u32, random: &mut Random) -> Vec<u32> {
        let bytes: [&[u8]; 2] = [&self.households, &self.sites];
        let mut call = Households::exact(&self.network, bytes, (q, k), random);
        let listing = call.run();
        assert_eq!(listing.number, 0);
        call.lent.answers.part()[..listing.length].to_vec()
    }

    /// Sees that the engine's sheet adds up.
    fn assert_sheet(&self, random: &mut Random) {
        assert_eq!(self.column(random), self.all_lists(1), "{}", self.story());
    }

    /// Sees that the engine's lists with this k add up, and that each household stands on as many of
    /// them as it should.
    fn assert_lists(&self, k: u32, random: &mut Random) {
        let mut stands_on = vec![0; self.households.len()];
        let mut lengths = 0;
        for (q, there) in present(&self.sites) {
            let list = self.list(q, k, random);
            lengths += there * u64::from(counted(&self.households, &list));
            for h in list {
                stands_on[h as usize] += there;
            }
        }
        assert_eq!(lengths, self.all_lists(k), "k {k}, {}", self.story());
        for home in &self.homes {
            home.assert_lists(k, stands_on[home.node as usize]);
        }
    }

    fn tally(&self, k: u32, tally: &mut Tally) {
        for home in &self.homes {
            home.tally(k, tally);
        }
    }

    fn story(&self) -> String {
        let bytes: [&[u8]; 2] = [&self.households, &self.sites];
        Sheet::exact(&self.network, bytes, &mut Random::new(0)).story()
    }
}

/// Network N, worked out by hand as in the proof: a household on node 1, two on 2, one on 3, three on
/// 5; a site at 0, two at 4, one at 5.
mod network_n {
    use super::*;

    fn case() -> Case {
        Case::small(&network_n(), [&[0, 1, 2, 1, 0, 3], &[1, 0, 0, 0, 2, 1]])
    }

    /// 1 × 3 + 2 × 3 + 1 × 3 by the sheet, 1 × 1 + 2 × 3 + 1 × 2 + 3 × 1 by the households.
    #[test]
    fn its_sheet_adds_up() {
        let mut random = Random::new(0);
        assert_eq!(case().sheet(&mut random), [3, 0, 0, 0, 3, 3]);
        assert_eq!(case().column(&mut random), 12);
        assert_eq!(case().all_lists(1), 12);
    }

    /// The lists of a household on nodes 1, 2, 3 and 5, for k = 1, 2 and 3.
    #[test]
    fn its_lists_add_up() {
        let (case, mut random) = (case(), Random::new(0));
        let by_hand = [([1, 3, 2, 1], 12), ([3, 3, 2, 1], 14), ([3, 3, 3, 1], 15)];
        for (k, (lists, all)) in (1..).zip(by_hand) {
            for (home, lists) in case.homes.iter().zip(lists) {
                home.assert_lists(k, lists);
            }
            assert_eq!(case.all_lists(k), all);
            case.assert_lists(k, &mut random);
        }
    }
}

/// Random networks.
mod random {
    use super::*;

    fn some_case(random: &mut Random) -> Case {
        let network = random_network(random);
        let [households, sites] = [(); 2].map(|()| some_points(&network, random));
        Case::small(&network, [&households, &sites])
    }

    fn assert_tally(tally: &Tally) {
        tally.print();
        for name in Home::TALLIED {
            tally.assert_at_least(2_000, name);
        }
    }

    #[test]
    fn sheets_add_up() {
        let mut tally = Tally::default();
        for seed in 0..10_000 {
            let mut random = Random::new(seed);
            let case = some_case(&mut random);
            case.assert_sheet(&mut random);
            case.tally(1, &mut tally);
        }
        assert_tally(&tally);
    }

    #[test]
    fn lists_add_up_for_every_k() {
        let mut tally = Tally::default();
        for seed in 0..1_000 {
            let mut random = Random::new(seed);
            let case = some_case(&mut random);
            for k in 1..=16 {
                case.assert_lists(k, &mut random);
                case.tally(k, &mut tally);
            }
        }
        assert_tally(&tally);
    }
}

/// All networks of up to four nodes with roads of weight 1 or 2, a household on each node, and 0 to 2
/// sites, or on up to three nodes also 15: the sheet, and the lists for k = 2.
mod exhaustive {
    use super::*;

    #[test]
    fn up_to_four_nodes() {
        let mut random = Random::new(5);
        try_all_small_points(|network, sites| {
            let case = Case::small(network, [&vec![1; sites.len()], sites]);
            case.assert_sheet(&mut random);
            case.assert_lists(2, &mut random);
        });
    }
}

/// Networks at document 01's bounds.
mod limits {
    use super::*;

    /// Roads of any weights, and all of weight 1, where many households have several nearest sites.
    #[test]
    fn a_grid_of_255_by_257_nodes() {
        let mut random = Random::new(6);
        for network in [largest_grid(weight_by_product), largest_grid(|_, _| 1)] {
            let bytes = [several_on_each(3), several_on_each(1_000)];
            let row = |q| relaxed_row(network.lend(), q);
            let case = Case::new(&network, [&bytes[0], &bytes[1]], row);
            case.assert_sheet(&mut random);
            case.assert_lists(2, &mut random);
        }
    }

    /// Two stars whose centres are joined, with sites on all 1,000 leaves of one, and households on all
    /// of the other: each household is equally near to all 15,000 sites, and the sum needs more than 32
    /// bits. What it is, is said by hand, so no home is looked at.
    #[test]
    fn a_column_above_32_bits() {
        let first = MOST_NODES - 1_000;
        let leaves = (2..MOST_NODES).map(|leaf| (u32::from(leaf >= first), leaf));
        let pairs: Vec<_> = leaves.chain([(0, 1)]).collect();
        let fifteen =
            |on: Range<u32>| (0..MOST_NODES).map(move |leaf| 15 * u8::from(on.contains(&leaf)));
        let case = Case {
            network: weighted(MOST_NODES, &pairs, |_, _| 65_535),
            households: fifteen(2..first).collect(),
            sites: fifteen(first..MOST_NODES).collect(),
            homes: Vec::new(),
        };
        let all = 15 * u64::from(first - 2) * 15_000;
        assert!(all > u64::from(u32::MAX));
        assert_eq!(case.column(&mut Random::new(7)), all);
    }
}
