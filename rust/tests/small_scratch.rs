//! Eager, verify and the short query in as little scratch as Ask 5 of document 02 allows: "Eager,
//! verify and the short query shall work with 12 × n entries for every k. Lists and counts stay the
//! same."
//!
//! That is little where k and the lockers are many for the nodes, and where the roads are. Here are
//! networks of both kinds; `eager.rs` and `verify.rs` lend no more either.

mod common;

use common::all_pairs::AllPairs;
use common::call::{assert_least_scratch, assert_scratch_lengths};
use common::call::{Answer, Call, Outcome};
use common::eager::{Eager, Short, SHORT_K};
use common::inputs::{some_k, some_node, some_points};
use common::largest::{densest, each, most_roads, several_on_each, DENSEST_NODES};
use common::nearest_rows::NearestRows;
use common::network::{marks, OwnedNetwork};
use common::random::Random;
use common::rows::{relaxed_row, verify_in};
use common::shapes::{chain, complete, random_network, random_network_of, star};
use common::shapes::{weight_by_product, weighted, Pair};
use common::site::{Site, EAGER};
use common::tally::Tally;
use common::verify::Verify;
use overlap::calls::{eager, eager_scratch_len, lazy, lazy_ep, verify, Listing};

/// A network and all its distances.
struct Town {
    network: OwnedNetwork,
    pairs: AllPairs,
}

impl Town {
    fn of(network: OwnedNetwork) -> Self {
        let pairs = AllPairs::of(network.lend());
        Self { network, pairs }
    }

    fn nodes(&self) -> u32 {
        self.network.starts.len() as u32 - 1
    }

    /// Tries the call in 12 × n words, in one word less, and in more where it does not take long.
    fn try_call<C: Call>(&self, call: C, random: &mut Random, expect: impl Fn(&C) -> Outcome<C>) {
        if self.network.neighbours.len() > 100_000 {
            assert_least_scratch(&call, random, expect);
        } else {
            assert_scratch_lengths(&call, random, expect);
        }
    }

    /// Eager with a limit that the count keeps, often just so, and with one that it exceeds.
    fn try_eager(&self, points: &[u8], (q, k): (u32, u32), random: &mut Random) {
        let list = self.pairs.plain_listed(points, q, k);
        let visits = self.pairs.plain_visits(points, q, k);
        let count = visits.len() as u32;
        let kept = random.pick(&[count, count, count + 1, 65_535, u32::MAX]);
        let call = Eager::exact(&self.network, points, (q, k, kept), random);
        self.try_call(call, random, |c| c.accepted(&list, &visits));
        let exceeded = random.pick(&[count - 1, count - 1, count / 2, 0]);
        let call = Eager::exact(&self.network, points, (q, k, exceeded), random);
        self.try_call(call, random, |c| c.refused(12));
    }

    fn try_short(&self, points: &[u8], q: u32, random: &mut Random) {
        let call = Short::exact(&self.network, points, q, random);
        self.try_call(call, random, |c| c.accepted_by(&self.pairs));
    }

    /// Verify of a point that is listed, of one that is not, and of a node without a locker, as far
    /// as there are such.
    fn try_verify(&self, points: &[u8], (q, k): (u32, u32), random: &mut Random) {
        let is_point = |p: &u32| points[*p as usize] > 0;
        let (marked, others): (Vec<u32>, Vec<u32>) = (0..self.nodes()).partition(is_point);
        let is_listed = |&p: &u32| self.pairs.plain_verify(points, p, q, k);
        let (listed, beaten): (Vec<u32>, Vec<u32>) = marked.into_iter().partition(is_listed);
        for nodes in [listed, beaten, others] {
            if let Some(choice) = random.index(nodes.len()) {
                let p = nodes[choice];
                let call = Verify::exact(&self.network, points, (p, q, k), random);
                self.try_call(call, random, |c| match is_point(&p) {
                    true => c.accepted(is_listed(&p)),
                    false => c.refused(11),
                });
            }
        }
    }

    /// All three for a site.
    fn try_site(&self, points: &[u8], (q, k): (u32, u32), random: &mut Random) {
        self.try_eager(points, (q, k), random);
        self.try_short(points, q, random);
        self.try_verify(points, (q, k), random);
    }
}

/// Few nodes, for which k and the lockers are many.
mod few_nodes {
    use super::*;

    const ROUNDS: u32 = 150;

    /// Any points, and often as many as there can be.
    fn any_points(network: &OwnedNetwork, random: &mut Random) -> Vec<u8> {
        if random.once_in(4) {
            vec![15; network.starts.len() - 1]
        } else {
            some_points(network, random)
        }
    }

    fn try_network(n: u32, k: u32, tally: &mut Tally, random: &mut Random) {
        let town = Town::of(random_network_of(n, random));
        let points = any_points(&town.network, random);
        let q = some_node(&town.network, random);
        town.try_site(&points, (q, k), random);
        let (n, words) = (town.nodes(), eager_scratch_len(town.network.lend()));
        let lockers: usize = points.iter().map(|&lockers| usize::from(lockers)).sum();
        tally.add(&format!("n {n:>2}"));
        tally.add_if(k > n, "k above n");
        tally.add_if(lockers > words, "more lockers than words of scratch");
        let arcs = town.network.neighbours.len();
        tally.add_if(arcs > words, "more arcs than words of scratch");
    }

    #[test]
    fn one_to_15_with_every_k() {
        let (mut random, mut tally) = (Random::new(1), Tally::default());
        for n in 1..=15 {
            for k in 1..=16 {
                for _ in 0..ROUNDS {
                    try_network(n, k, &mut tally, &mut random);
                }
            }
        }
        tally.print();
        for n in 1..=15 {
            tally.assert_at_least(10 * ROUNDS as usize, &format!("n {n:>2}"));
        }
        for name in [
            "k above n",
            "more lockers than words of scratch",
            "more arcs than words of scratch",
        ] {
            tally.assert_at_least(ROUNDS as usize, name);
        }
    }

    /// 12 words for every k up to 16, and for up to 15 lockers. By hand, none is listed, as the site
    /// is on their node, and the node is expanded.
    #[test]
    fn one_node_alone() {
        let mut random = Random::new(2);
        let town = Town::of(OwnedNetwork::from_roads(1, &[]));
        for lockers in 0..=15 {
            for k in 1..=16 {
                let call = Eager::exact(&town.network, &[lockers], (0, k, 1), &mut random);
                town.try_call(call, &mut random, |c| c.accepted(&[], &[0]));
                town.try_site(&[lockers], (0, k), &mut random);
            }
        }
    }
}

/// Two nodes, a road of 4 between them, and 15 lockers on node 1, by hand.
mod fifteen_lockers_on_one_of_two_nodes {
    use super::*;

    const POINTS: [u8; 2] = [0, 15];

    fn town() -> Town {
        Town::of(OwnedNetwork::from_roads(2, &[(0, 1, 4)]))
    }

    /// Sees that by hand and by the plain calculation it is this list and these visits, and verify
    /// says yes of node 1 where it is listed.
    fn assert_site((q, k): (u32, u32), list: &[u32], visits: &[u32]) {
        let (town, mut random) = (town(), Random::new(u64::from(k)));
        assert_eq!(town.pairs.plain_listed(&POINTS, q, k), list);
        assert_eq!(town.pairs.plain_visits(&POINTS, q, k), visits);
        let count = visits.len() as u32;
        for limit in [count, 65_535, u32::MAX] {
            let call = Eager::exact(&town.network, &POINTS, (q, k, limit), &mut random);
            town.try_call(call, &mut random, |c| c.accepted(list, visits));
        }
        for limit in 0..count {
            let call = Eager::exact(&town.network, &POINTS, (q, k, limit), &mut random);
            town.try_call(call, &mut random, |c| c.refused(12));
        }
        let call = Verify::exact(&town.network, &POINTS, (1, q, k), &mut random);
        town.try_call(call, &mut random, |c| c.accepted(list.contains(&1)));
        if k == SHORT_K {
            let call = Short::exact(&town.network, &POINTS, q, &mut random);
            town.try_call(call, &mut random, |c| c.accepted(list, count));
        }
    }

    /// From site 0, each locker has 14 companions nearer, and node 1 has 15 points nearer.
    #[test]
    fn k_of_3_from_the_other_node() {
        assert_site((0, 3), &[], &[0]);
    }

    /// From site 1, the lockers are on the site, and node 0 has all 15 as far as the site.
    #[test]
    fn k_of_3_from_the_node_itself() {
        assert_site((1, 3), &[], &[1, 0]);
    }

    #[test]
    fn every_k() {
        for k in 1..=16 {
            // Fewer than k of the 14 companions; fewer than k of the 15 points.
            let list: &[u32] = if k >= 15 { &[1] } else { &[] };
            let visits: &[u32] = if k == 16 { &[0, 1] } else { &[0] };
            assert_site((0, k), list, visits);
            assert_site((1, k), &[], &[1, 0]);
        }
    }
}

/// Networks with many roads to a node, or many nodes behind one.
mod shapes {
    use super::*;

    const K: [u32; 5] = [1, 2, 4, 15, 16];

    /// Some points of any kind, each k, and some sites.
    fn try_network(network: OwnedNetwork, random: &mut Random) {
        let town = Town::of(network);
        for _ in 0..4 {
            let points = some_points(&town.network, random);
            for k in K {
                for _ in 0..3 {
                    let q = some_node(&town.network, random);
                    town.try_site(&points, (q, k), random);
                }
            }
        }
        let none = vec![0; town.nodes() as usize];
        town.try_site(&none, (0, 16), random);
    }

    fn try_shape(n: u32, pairs: &[Pair], random: &mut Random) {
        try_network(weighted(n, pairs, |_, _| 1), random);
        try_network(weighted(n, pairs, |_, _| 65_535), random);
        for heaviest in [3, 65_535] {
            let weight = |_, _| random.between(1, heaviest);
            let network = weighted(n, pairs, weight);
            try_network(network, random);
        }
    }

    #[test]
    fn complete_networks_of_60_nodes() {
        try_shape(60, &complete(60), &mut Random::new(3));
    }

    #[test]
    fn stars() {
        let mut random = Random::new(4);
        for (n, centre) in [(2, 0), (16, 15), (60, 0), (60, 59), (200, 100)] {
            try_shape(n, &star(n, centre), &mut random);
        }
    }

    #[test]
    fn chains() {
        let mut random = Random::new(5);
        for n in [2, 3, 16, 60, 200] {
            try_shape(n, &chain(n), &mut random);
        }
    }
}

/// As many roads on as few nodes as document 01 allows: 12 × 725 words, and 524,288 arcs.
mod densest {
    use super::*;

    fn town(weight: impl FnMut(u32, u32) -> u32) -> Town {
        let town = Town::of(densest(weight));
        let arcs = town.network.neighbours.len();
        assert_eq!((town.nodes(), arcs), (725, 524_288));
        town
    }

    /// Tries these sites with their k. The points may be those of more nodes.
    fn try_sites(town: &Town, points: &[u8], asked: &[(u32, u32)], random: &mut Random) {
        for &asked in asked {
            town.try_site(&points[..DENSEST_NODES as usize], asked, random);
        }
    }

    #[test]
    fn of_random_weights() {
        let mut random = Random::new(6);
        let town = town(|_, _| random.between(1, 65_535));
        let mut random = Random::new(7);
        let asked = [(0, 1), (300, 4), (724, 16)];
        try_sites(&town, &each(50), &asked, &mut random);
        let asked = [(7, 1), (611, 8), (612, 15), (13, 16)];
        try_sites(&town, &several_on_each(7), &asked, &mut random);
        // One locker is fewer than 16, and none is nearer than a site on its node: all is expanded.
        let one = marks(DENSEST_NODES, &[724]);
        try_sites(&town, &one, &[(0, 16), (724, 1)], &mut random);
    }

    #[test]
    fn of_one_weight() {
        let (town, mut random) = (town(|_, _| 1), Random::new(8));
        try_sites(&town, &each(50), &[(0, 1), (1, 2), (724, 16)], &mut random);
        let asked = [(0, 1), (611, 8), (612, 15), (13, 16)];
        try_sites(&town, &several_on_each(7), &asked, &mut random);
    }

    #[test]
    fn of_few_weights() {
        let (town, mut random) = (town(weight_by_product), Random::new(9));
        try_sites(&town, &each(30), &[(0, 1), (97, 2), (724, 16)], &mut random);
        let asked = [(1, 1), (30, 16), (500, 4)];
        try_sites(&town, &several_on_each(30), &asked, &mut random);
    }
}

/// As many nodes and as many roads as document 01 allows.
mod limits {
    use super::*;

    #[test]
    fn the_most_nodes_and_the_most_roads() {
        let (network, mut random) = (most_roads(weight_by_product), Random::new(10));
        assert_eq!(network.neighbours.len(), 524_288);
        for (points, q, k) in [
            (each(1_000), 30_100, 1),
            (each(1_000), 30_500, 2),
            (several_on_each(1_000), 12_345, 16),
        ] {
            let nearest = NearestRows::of(network.lend(), &points, k as usize + 1);
            let from_q = relaxed_row(network.lend(), q);
            let (list, visits) = (nearest.listed(&from_q, k), nearest.visits(&from_q, k));
            let count = visits.len() as u32;
            assert!(!list.is_empty() && count > 1);
            let call = Eager::exact(&network, &points, (q, k, count), &mut random);
            assert_scratch_lengths(&call, &mut random, |c| c.accepted(&list, &visits));
            let call = Eager::exact(&network, &points, (q, k, count - 1), &mut random);
            assert_scratch_lengths(&call, &mut random, |c| c.refused(12));
            if k == SHORT_K {
                let call = Short::exact(&network, &points, q, &mut random);
                assert_scratch_lengths(&call, &mut random, |c| c.accepted(&list, count));
            }
            for p in [list[0], 31_000] {
                let yes = verify_in(&relaxed_row(network.lend(), p), &points, p, q, k);
                assert_eq!(yes, list.contains(&p));
                let call = Verify::exact(&network, &points, (p, q, k), &mut random);
                assert_scratch_lengths(&call, &mut random, |c| c.accepted(yes));
            }
        }
    }
}

/// "Lists and counts stay the same."
mod agreement {
    use super::*;

    /// Eager and verify in 12 × n words, the others in S, all on one site.
    fn assert_agree(network: &OwnedNetwork, pairs: &AllPairs, random: &mut Random) {
        let (points, q, k) = (
            some_points(network, random),
            some_node(network, random),
            some_k(random),
        );
        let site = Site::exact(network, &points, (q, k), random);
        let mut by_eager = site.for_eager(random);
        let listing = by_eager.run(EAGER);
        let list = by_eager.answers.part()[..listing.length].to_vec();
        assert_eq!((listing.number, &list), (0, &site.list(pairs)));
        assert_eq!(listing.count, site.expanded(pairs));
        for search in [lazy, lazy_ep] {
            let mut site = site.clone();
            let listing = site.run(search);
            assert_eq!((listing.number, listing.length), (0, list.len()));
            assert_eq!(site.answers.part()[..list.len()], list);
        }
        for p in (0..points.len() as u32).filter(|&p| points[p as usize] > 0) {
            let mut call = Verify::exact(network, &points, (p, q, k), random);
            assert_eq!(call.run().accepted(), Ok(list.contains(&p)));
        }
    }

    #[test]
    fn of_eager_and_verify_in_12_n_with_lazy_and_lazy_ep_in_s() {
        for seed in 20_000..26_000 {
            let mut random = Random::new(seed);
            let network = random_network(&mut random);
            let pairs = AllPairs::of(network.lend());
            for _ in 0..2 {
                assert_agree(&network, &pairs, &mut random);
            }
        }
    }

    /// One scratch for one call after another, so that each finds what the last one left.
    #[test]
    fn of_calls_behind_each_other() {
        for seed in 0..2_000 {
            let mut random = Random::new(seed);
            let town = Town::of(random_network(&mut random));
            let mut site = Site::random_eager(&town.network, &mut random);
            let (q, k) = (site.q, site.k);
            let (list, visits) = (site.list(&town.pairs), site.visits(&town.pairs));
            let (network, points) = (town.network.lend(), &site.points);
            let (scratch, answers) = (site.scratch.part_mut(), site.answers.part_mut());
            let (count, mut visited) = (visits.len() as u32, vec![0; points.len()]);
            for limit in [count - 1, count, 0, u32::MAX] {
                let v = &mut visited;
                let listing = eager(network, points, q, k, limit, scratch, answers, v);
                if limit < count {
                    assert_eq!(listing, Listing::refusal(12));
                } else {
                    assert_eq!((listing.number, listing.count), (0, count));
                    assert_eq!(answers[..listing.length], list);
                    assert_eq!(visited[..visits.len()], visits);
                }
                for p in (0..town.nodes()).filter(|&p| points[p as usize] > 0) {
                    let verdict = verify(network, points, p, q, k, scratch);
                    assert_eq!(verdict.accepted(), Ok(list.contains(&p)));
                }
                assert!(scratch.iter().all(|&word| word == 0));
            }
        }
    }
}
