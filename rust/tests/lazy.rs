//! Lazy and lazy-EP, compared with document 01 and with eager. Each test tries both.

mod common;

use common::all_pairs::AllPairs;
use common::call::{assert_lower_numbers_first, assert_outcome, assert_random_calls};
use common::call::{assert_refused, compare, Call, Outcome, LEAST_OF_EACH};
use common::faults::Fault;
use common::inputs::{no_k, no_node, some_k, some_node, some_points, spoil_points};
use common::largest::{each, largest_grid, largest_star, longest_chain, most_roads};
use common::largest::{several_on_each, LAST, MOST_NODES};
use common::lent::Lent;
use common::nearest_rows::NearestRows;
use common::network::{marks, network_n, OwnedNetwork, N_NODES, N_POINTS};
use common::random::Random;
use common::rows::relaxed_row;
use common::shapes::{belt, chain, chain_and_grid, complete, far_grid, grid};
use common::shapes::{random_network, ring, star, try_all_small_points};
use common::shapes::{weight_by_product, weighted};
use common::site::{SearchCall, Site, EAGER};
use common::tally::Tally;
use overlap::calls::{lazy, lazy_ep, Listing};
use std::marker::PhantomData;

/// One of the two searches.
trait Search: Clone + 'static {
    const NAME: &'static str;
    const CALL: SearchCall;
}

#[derive(Clone)]
struct Lazy;

impl Search for Lazy {
    const NAME: &'static str = "lazy";
    const CALL: SearchCall = lazy;
}

#[derive(Clone)]
struct LazyEp;

impl Search for LazyEp {
    const NAME: &'static str = "lazy-EP";
    const CALL: SearchCall = lazy_ep;
}

/// A call of the search S.
#[derive(Clone)]
struct By<S> {
    site: Site,
    search: PhantomData<S>,
}

impl<S: Search> By<S> {
    fn of(site: &Site) -> Self {
        Self {
            site: site.clone(),
            search: PhantomData,
        }
    }

    /// "Lazy [...] and lazy-EP [...]: the list." There is no count.
    fn accepted(&self, list: &[u32]) -> Outcome<Self> {
        let (listing, left) = self.site.accepted(list, 0);
        (listing, Self::of(&left))
    }
}

impl<S: Search> Call for By<S> {
    type Answer = Listing;

    const OWN_FAULTS: &'static [(u32, Fault<Self>)] = &[
        (6, |c, r| spoil_points(&mut c.site.points, r)),
        (7, |c, r| c.site.q = no_node(&c.site.network, r)),
        (9, |c, r| c.site.k = no_k(r)),
        (10, |c, r| c.site.shorten_answers(r)),
    ];

    fn random(network: &OwnedNetwork, _: &AllPairs, random: &mut Random) -> Self {
        Self::of(&Site::random(network, random))
    }

    fn run(&mut self) -> Listing {
        self.site.run(S::CALL)
    }

    fn number(&self) -> u32 {
        self.site.number()
    }

    fn accepted_by(&self, pairs: &AllPairs) -> Outcome<Self> {
        self.accepted(&self.site.list(pairs))
    }

    fn network(&self) -> &OwnedNetwork {
        &self.site.network
    }

    fn network_mut(&mut self) -> &mut OwnedNetwork {
        &mut self.site.network
    }

    fn points(&self) -> &[u8] {
        &self.site.points
    }

    fn least_scratch(&self) -> usize {
        self.site.least_scratch()
    }

    fn scratch_mut(&mut self) -> &mut Lent {
        &mut self.site.scratch
    }

    fn arrays(&self) -> Vec<(&'static str, &Lent)> {
        self.site.arrays()
    }

    fn asked(&self) -> String {
        let (q, k) = (self.site.q, self.site.k);
        format!("{}, q {q}, k {k}", S::NAME)
    }

    fn tally(&self, tally: &mut Tally, pairs: &AllPairs) {
        self.site.tally(tally, pairs);
    }
}

/// Sees that both searches list these points and leave all else as document 01 says.
fn assert_list(site: &Site, list: &[u32]) {
    fn assert_by<S: Search>(site: &Site, list: &[u32]) {
        let call = By::<S>::of(site);
        let outcome = call.accepted(list);
        assert_outcome(call, &outcome);
    }
    assert_by::<Lazy>(site, list);
    assert_by::<LazyEp>(site, list);
}

/// Sees that both searches refuse with this number.
fn assert_both_refuse(site: &Site, number: u32) {
    assert_refused(By::<Lazy>::of(site), number);
    assert_refused(By::<LazyEp>::of(site), number);
}

/// Sees that both searches do as document 01 says, and returns the number.
fn compare_both(site: &Site) -> u32 {
    let numbers = [
        compare(By::<Lazy>::of(site)),
        compare(By::<LazyEp>::of(site)),
    ];
    assert_eq!(numbers[0], numbers[1]);
    numbers[0]
}

/// Tries every site and these k with these points.
fn try_sites(
    network: &OwnedNetwork,
    pairs: &AllPairs,
    points: &[u8],
    ks: &[u32],
    random: &mut Random,
) {
    for q in 0..points.len() as u32 {
        for &k in ks {
            let site = Site::exact(network, points, (q, k), random);
            assert_list(&site, &site.list(pairs));
        }
    }
}

/// Network N of document 01, by hand.
mod network_n {
    use super::*;

    fn site(q: u32, k: u32) -> Site {
        let points = marks(N_NODES, &N_POINTS);
        let seed = u64::from(q) + u64::from(k);
        Site::exact(&network_n(), &points, (q, k), &mut Random::new(seed))
    }

    #[test]
    fn the_lists_of_p1_to_p5() {
        assert_list(&site(0, 1), &[2]);
        assert_list(&site(0, 2), &[2, 4]);
        assert_list(&site(1, 1), &[2]);
        assert_list(&site(2, 1), &[4]);
        assert_list(&site(5, 1), &[]);
    }

    #[test]
    fn nothing_is_listed_without_points_in_p6() {
        let mut site = site(0, 1);
        site.points = vec![0; 6];
        assert_list(&site, &[]);
    }

    /// P7: with the road 2-4 of 6, point 4 is nearer to 2 than site 0 is.
    #[test]
    fn nothing_is_listed_in_p7() {
        let roads = [(0, 1, 4), (0, 3, 5), (1, 2, 3), (2, 4, 6), (3, 4, 3)];
        let mut site = site(0, 1);
        site.network = OwnedNetwork::from_roads(N_NODES, &roads);
        assert_list(&site, &[]);
    }

    #[test]
    fn each_condition_of_its_own() {
        let assert_number = |number, change: fn(&mut Site)| {
            let mut site = site(0, 2);
            change(&mut site);
            assert_both_refuse(&site, number);
        };
        assert_number(6, |s| s.points[3] = 16);
        assert_number(6, |s| s.points[5] = 255);
        assert_number(6, |s| s.points.truncate(5));
        assert_number(6, |s| s.points.push(0));
        assert_number(7, |s| s.q = 6);
        assert_number(7, |s| s.q = u32::MAX);
        assert_number(9, |s| s.k = 0);
        assert_number(9, |s| s.k = 17);
        assert_number(9, |s| s.k = u32::MAX);
        assert_number(10, |s| s.answers = Lent::junk(5, &mut Random::new(0)));
    }

    /// S is 16 × 6 + 8 × (10 + 6) × k.
    #[test]
    fn scratch_grows_with_k() {
        for (k, length) in [(1, 224), (2, 352), (16, 2_144)] {
            let lengths = [(0, 10), (1, 10), (length - 1, 10), (length, 0)];
            for (length, number) in lengths.into_iter().chain([(length + 1, 0), (9_999, 0)]) {
                for seed in 0..20 {
                    let mut site = site(0, k);
                    site.scratch = Lent::junk(length, &mut Random::new(seed));
                    assert_eq!(compare_both(&site), number);
                }
            }
        }
    }

    /// One array after another, so that each call finds what the last one left.
    #[test]
    fn a_call_behind_another() {
        let mut site = site(0, 2);
        for search in [lazy, lazy_ep, lazy, lazy_ep] {
            let listing = site.run(search);
            assert_eq!((listing.number, listing.length), (0, 2));
            assert_eq!(site.answers.part()[..2], [2, 4]);
            assert!(site.scratch.part().iter().all(|&word| word == 0));
        }
    }
}

/// "Conditions are tried from 1 upward [...]; the first met is returned".
mod order {
    use super::*;

    #[test]
    fn two_conditions_give_the_lower_number() {
        assert_lower_numbers_first::<By<Lazy>>();
        assert_lower_numbers_first::<By<LazyEp>>();
    }
}

/// Random networks, valid and damaged, against the plain calculation.
mod random {
    use super::*;

    fn assert_random<S: Search>() {
        let numbers = [0, 1, 2, 3, 4, 5, 6, 7, 9, 10];
        assert_random_calls::<By<S>>(&numbers, &Site::TALLIED).assert_each_k(LEAST_OF_EACH);
    }

    #[test]
    fn lazy_and_plain_calculation_agree() {
        assert_random::<Lazy>();
    }

    #[test]
    fn lazy_ep_and_plain_calculation_agree() {
        assert_random::<LazyEp>();
    }

    #[test]
    fn all_searches_and_the_plain_calculation_agree() {
        for seed in 10_000..20_000 {
            let mut random = Random::new(seed);
            let network = random_network(&mut random);
            let pairs = AllPairs::of(network.lend());
            for _ in 0..4 {
                let site = Site::random(&network, &mut random);
                let list = site.list(&pairs);
                for search in [EAGER, lazy, lazy_ep] {
                    let mut site = site.clone();
                    let listing = site.run(search);
                    assert_eq!(listing.number, 0, "{network:?}");
                    assert_eq!(site.answers.part()[..listing.length], list, "{network:?}");
                }
            }
        }
    }
}

/// All networks of up to four nodes with roads of weight 1 or 2, and 0 to 2 lockers on each node.
mod exhaustive {
    use super::*;

    #[test]
    fn up_to_four_nodes() {
        let mut random = Random::new(5);
        try_all_small_points(|network, points| {
            let pairs = AllPairs::of(network.lend());
            try_sites(network, &pairs, points, &[1, 2, 3], &mut random);
        });
    }
}

/// Where searches slip: "Lazy counts a verification's visit at an equal distance and prunes a node
/// that must be expanded."
mod equal_distances {
    use super::*;

    /// No points, all, each second and third node, also with two lockers, single ones, and random
    /// ones.
    fn sets_of_points(network: &OwnedNetwork, random: &mut Random) -> Vec<Vec<u8>> {
        let n = network.starts.len() as u32 - 1;
        let times = |lockers, step| (0..n).map(|p| lockers * u8::from(p % step == 0)).collect();
        let each = |step| times(1, step);
        let mut sets = vec![vec![0; n as usize], each(1), each(2), each(3), each(7)];
        sets.extend([times(2, 3), times(2, 7)]);
        sets.extend([0, n / 2, n - 1].map(|p| marks(n, &[p])));
        sets.extend((0..6).map(|_| some_points(network, random)));
        sets
    }

    fn try_network(network: &OwnedNetwork, random: &mut Random) {
        let pairs = AllPairs::of(network.lend());
        for points in sets_of_points(network, random) {
            try_sites(network, &pairs, &points, &[1, 2, 3, 16], random);
        }
    }

    #[test]
    fn every_road_of_the_same_weight() {
        let mut random = Random::new(11);
        let shapes = [
            (30, grid(5, 6)),
            (49, grid(7, 7)),
            (40, grid(2, 20)),
            (9, complete(9)),
            (20, complete(20)),
            (8, ring(8)),
            (9, ring(9)),
            (40, ring(40)),
            (25, star(25, 3)),
            (24, belt(24, 72)),
            (33, chain(33)),
            (40, chain_and_grid(10, 5, 6)),
        ];
        for (n, pairs) in shapes {
            for weight in [1, 65_535] {
                try_network(&weighted(n, &pairs, |_, _| weight), &mut random);
            }
        }
    }

    /// A ring whose node across from 0 is as far one way round as the other: the weights of one half
    /// stand in the other in another order.
    fn even_ring(half: u32, random: &mut Random) -> OwnedNetwork {
        let there: Vec<u32> = (0..half).map(|_| random.between(1, 4)).collect();
        let mut back = there.clone();
        random.shuffle(&mut back);
        let weights = [there, back].concat();
        // Road i leads from node i to the next one, the last road to node 0.
        weighted(2 * half, &ring(2 * half), |a, _| weights[a as usize])
    }

    #[test]
    fn two_equal_ways_round() {
        let mut random = Random::new(12);
        for half in 2..=12 {
            for _ in 0..4 {
                try_network(&even_ring(half, &mut random), &mut random);
            }
        }
    }

    /// Weights 1 and 2 only, so that many ways are equally long.
    #[test]
    fn few_weights() {
        for seed in 0..4 {
            let mut random = Random::new(seed);
            let shapes = [(30, grid(5, 6)), (12, complete(12)), (30, belt(30, 80))];
            for (n, pairs) in shapes {
                let network = weighted(n, &pairs, |_, _| random.between(1, 2));
                try_network(&network, &mut random);
            }
        }
    }
}

/// Points and sites that are out of the ordinary.
mod special {
    use super::*;

    const TRIES: u64 = 2_000;

    /// The points on other nodes that can be reached from q.
    fn reached(site: &Site, pairs: &AllPairs) -> Vec<u32> {
        let others = (0..site.points.len() as u32).filter(|&p| p != site.q);
        let is_reached =
            |&p: &u32| site.points[p as usize] > 0 && pairs.row(site.q)[p as usize].is_some();
        others.filter(is_reached).collect()
    }

    /// With at most k lockers, fewer than k others are nearer. Those on q aren't listed.
    #[test]
    fn k_not_below_the_number_of_points_lists_all_that_are_reached() {
        for seed in 0..TRIES {
            let mut random = Random::new(seed);
            let network = random_network(&mut random);
            let pairs = AllPairs::of(network.lend());
            let n = network.starts.len() as u32 - 1;
            let k = some_k(&mut random);
            let few: Vec<u32> = (0..random.between(0, k)).map(|_| random.below(n)).collect();
            let q = some_node(&network, &mut random);
            let site = Site::exact(&network, &marks(n, &few), (q, k), &mut random);
            assert_list(&site, &reached(&site, &pairs));
        }
    }

    #[test]
    fn every_node_a_point() {
        for seed in 0..TRIES {
            let mut random = Random::new(seed);
            let network = random_network(&mut random);
            let pairs = AllPairs::of(network.lend());
            let points = vec![random.pick(&[1, 1, 2, 15]); network.starts.len() - 1];
            let asked = (some_node(&network, &mut random), some_k(&mut random));
            let site = Site::exact(&network, &points, asked, &mut random);
            let list = site.list(&pairs);
            assert!(!list.contains(&site.q));
            assert_list(&site, &list);
        }
    }

    /// "a point on q isn't listed" (Ask 6).
    #[test]
    fn a_site_on_a_point() {
        for seed in 0..TRIES {
            let mut random = Random::new(seed);
            let network = random_network(&mut random);
            let pairs = AllPairs::of(network.lend());
            let mut site = Site::random(&network, &mut random);
            let on_q = &mut site.points[site.q as usize];
            *on_q = random.pick(&[1, 2, 15]).max(*on_q);
            let list = site.list(&pairs);
            assert!(!list.contains(&site.q));
            assert_list(&site, &list);
        }
    }

    /// The last node has no road, so a point on it is all that it reaches, and that isn't listed.
    #[test]
    fn a_site_alone() {
        for seed in 0..TRIES {
            let mut random = Random::new(seed);
            let mut network = random_network(&mut random);
            network.starts.push(network.neighbours.len() as u32);
            let mut site = Site::random(&network, &mut random);
            site.q = network.starts.len() as u32 - 2;
            for lockers in [0, 1, 15] {
                let mut site = site.clone();
                site.points[site.q as usize] = lockers;
                assert_list(&site, &[]);
            }
        }
    }

    #[test]
    fn one_node_without_a_road() {
        let network = OwnedNetwork::from_roads(1, &[]);
        for k in 1..=16 {
            for points in [[0], [1], [15]] {
                let site = Site::exact(&network, &points, (0, k), &mut Random::new(7));
                assert_list(&site, &[]);
            }
        }
    }
}

/// Networks at document 01's bounds.
mod limits {
    use super::*;

    fn assert_listed(network: &OwnedNetwork, points: &[u8], asked: (u32, u32), list: &[u32]) {
        let site = Site::exact(network, points, asked, &mut Random::new(6));
        assert_list(&site, list);
    }

    /// Sees that both searches list what the nearest points of each node say, for each q and k.
    fn assert_relaxed(network: &OwnedNetwork, points: &[u8], asked: &[(u32, u32)]) {
        let most = asked.iter().map(|&(_, k)| k as usize + 1).max().unwrap();
        let nearest = NearestRows::of(network.lend(), points, most);
        for &(q, k) in asked {
            let list = nearest.listed(&relaxed_row(network.lend(), q), k);
            assert!(!list.is_empty());
            assert_listed(network, points, (q, k), &list);
        }
    }

    #[test]
    fn the_middle_of_the_longest_chain() {
        let network = longest_chain();
        let q = MOST_NODES / 2;
        assert_listed(&network, &each(1_000), (q, 1), &[32_000, 33_000]);
        let all = vec![1; MOST_NODES as usize];
        assert_listed(&network, &all, (q, 1), &[q - 1, q + 1]);
        assert_relaxed(&network, &each(1_000), &[(q, 4), (0, 4), (LAST, 2)]);
    }

    #[test]
    fn the_ends_of_the_longest_chain() {
        let network = longest_chain();
        let none = marks(MOST_NODES, &[]);
        assert_listed(&network, &none, (0, 1), &[]);
        let ends = marks(MOST_NODES, &[0, LAST]);
        assert_listed(&network, &ends, (0, 1), &[LAST]);
        assert_listed(&network, &ends, (LAST, 1), &[0]);
        let three = marks(MOST_NODES, &[0, LAST - 1, LAST]);
        assert_listed(&network, &three, (0, 1), &[]);
        assert_listed(&network, &three, (0, 2), &[LAST - 1, LAST]);
    }

    /// Each leaf has the centre nearer than q, which is another leaf.
    #[test]
    fn a_star_of_the_most_nodes() {
        let centre = 7;
        let network = largest_star(centre);
        let three = marks(MOST_NODES, &[0, centre, LAST]);
        assert_listed(&network, &three, (LAST, 1), &[centre]);
        assert_listed(&network, &three, (LAST, 2), &[0, centre]);
        assert_listed(&network, &three, (1, 1), &[centre]);
        assert_listed(&network, &three, (centre, 1), &[0, LAST]);
        let all = vec![1; MOST_NODES as usize];
        assert_listed(&network, &all, (LAST, 1), &[centre]);
        let none = vec![0; MOST_NODES as usize];
        assert_listed(&network, &none, (LAST, 2), &[]);
    }

    #[test]
    fn the_most_nodes_without_a_road() {
        let network = OwnedNetwork::from_roads(MOST_NODES, &[]);
        let all = vec![1; MOST_NODES as usize];
        for q in [0, LAST] {
            assert_listed(&network, &all, (q, 2), &[]);
        }
    }

    #[test]
    fn a_grid_of_255_by_257_nodes() {
        let network = largest_grid(weight_by_product);
        let asked = [(MOST_NODES / 2, 1), (0, 4), (12_345, 4), (100, 4)];
        assert_relaxed(&network, &each(100), &asked);
        let asked = [(MOST_NODES / 2, 16), (12_345, 4), (12_300, 1)];
        assert_relaxed(&network, &several_on_each(100), &asked);
    }

    #[test]
    fn a_grid_of_255_by_257_nodes_and_equal_weights() {
        let network = largest_grid(|_, _| 1);
        assert_relaxed(&network, &each(100), &[(MOST_NODES / 2, 1), (12_300, 4)]);
        assert_relaxed(&network, &several_on_each(100), &[(MOST_NODES / 2, 16)]);
    }

    /// A long chain leads to a grid, in which many nodes have distances around 2^31, or near the
    /// largest one. Two points are beside q at the other end of the chain, the others in the grid.
    #[test]
    fn many_nodes_at_large_distances() {
        for (length, rows, columns) in [(32_700, 160, 200), (64_000, 30, 50)] {
            let n = length + rows * columns;
            let network = far_grid(length, rows, columns);
            let points = marks(n, &[1, 2, length + columns / 2, n - columns, n - 2, n - 1]);
            assert_relaxed(&network, &points, &[(0, 4), (0, 6)]);
        }
    }

    #[test]
    fn the_most_arcs() {
        let network = most_roads(weight_by_product);
        assert_eq!(network.neighbours.len(), 524_288);
        assert_relaxed(&network, &each(1_000), &[(LAST, 1), (30_000, 2)]);
    }

    #[test]
    fn scratch_of_one_word_less_is_refused() {
        let mut random = Random::new(8);
        let network = most_roads(|_, _| 1);
        let mut site = Site::exact(&network, &each(1_000), (0, 2), &mut random);
        site.scratch = Lent::junk(site.scratch.len() - 1, &mut random);
        assert_both_refuse(&site, 10);
    }
}
