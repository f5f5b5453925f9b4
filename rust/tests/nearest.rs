//! The nearest points of a node, compared with document 01.

mod common;

use common::all_pairs::AllPairs;
use common::call::{
    assert_lower_numbers_first, assert_outcome, assert_random_calls, assert_refused,
};
use common::call::{compare, Call, Outcome, LEAST_OF_EACH};
use common::faults::Fault;
use common::inputs::{enough, no_k, no_node, some_e, some_k, some_node};
use common::inputs::{some_points, spoil_points, too_short};
use common::largest::{each, largest_grid, largest_star, longest_chain, several_on_each};
use common::largest::{LAST, MOST_NODES};
use common::lent::Lent;
use common::network::{marks, network_n, OwnedNetwork, N_NODES, N_POINTS};
use common::numbers::{nearest_number, plain_scratch_len};
use common::random::Random;
use common::rows::LARGEST_DISTANCE;
use common::rows::{is_cut_in_a_node, nearest_in, relaxed_row, repeats_a_node, Near};
use common::shapes::{try_all_small_points, weight_by_product};
use common::tally::Tally;
use overlap::calls::{nearest, Found, Listing, NONE};

/// Everything that a call is lent.
#[derive(Clone)]
struct Nearest {
    network: OwnedNetwork,
    points: Vec<u8>,
    node: u32,
    e: u32,
    k: u32,
    scratch: Lent,
    ids: Lent,
    distances: Lent,
}

/// The numbers that a call asks for: its node, e and k.
type Asked = (u32, u32, u32);

impl Nearest {
    /// A call with arrays that are just long enough and full of junk. The network is an accepted
    /// one and k at most 16.
    fn exact(network: &OwnedNetwork, points: &[u8], asked: Asked, random: &mut Random) -> Self {
        let (node, e, k) = asked;
        Self {
            network: network.clone(),
            points: points.to_vec(),
            node,
            e,
            k,
            scratch: Lent::junk(plain_scratch_len(network.lend(), k), random),
            ids: Lent::junk(k as usize, random),
            distances: Lent::junk(k as usize, random),
        }
    }

    /// "An accepted call returns number 0; a listing or nearest call also the length of its list."
    /// "An accepted call with scratch leaves it all zero. Answer arrays hold the answer, then their
    /// old entries."
    fn accepted(&self, found: &[Near]) -> Outcome<Self> {
        let (ids, distances): (Vec<u32>, Vec<u32>) = found.iter().copied().unzip();
        let mut left = self.clone();
        left.scratch = left.scratch.cleared();
        left.ids = left.ids.with_answer(&ids);
        left.distances = left.distances.with_answer(&distances);
        let listing = Listing {
            number: 0,
            count: 0,
            length: found.len(),
        };
        (listing, left)
    }
}

impl Call for Nearest {
    type Answer = Listing;

    const OWN_FAULTS: &'static [(u32, Fault<Self>)] = &[
        (6, |c, r| spoil_points(&mut c.points, r)),
        (7, |c, r| c.node = no_node(&c.network, r)),
        (9, |c, r| c.k = no_k(r)),
        (10, |c, r| c.ids = shortened(c.k, r)),
        (10, |c, r| c.distances = shortened(c.k, r)),
    ];

    fn random(network: &OwnedNetwork, pairs: &AllPairs, random: &mut Random) -> Self {
        let (points, node) = (some_points(network, random), some_node(network, random));
        let asked = (node, some_e(pairs.row(node), random), some_k(random));
        let mut call = Self::exact(network, &points, asked, random);
        for array in [&mut call.scratch, &mut call.ids, &mut call.distances] {
            *array = Lent::junk(enough(array.len(), random), random);
        }
        call
    }

    fn run(&mut self) -> Listing {
        let (node, e, k) = (self.node, self.e, self.k);
        let found = Found {
            ids: self.ids.part_mut(),
            distances: self.distances.part_mut(),
        };
        let (network, scratch) = (self.network.lend(), self.scratch.part_mut());
        nearest(network, &self.points, node, e, k, scratch, found)
    }

    fn number(&self) -> u32 {
        let (network, answers) = (self.network.lend(), [self.ids.len(), self.distances.len()]);
        let scratch = self.scratch.len();
        nearest_number(network, &self.points, self.node, self.k, scratch, answers)
    }

    fn accepted_by(&self, pairs: &AllPairs) -> Outcome<Self> {
        self.accepted(&pairs.plain_nearest(&self.points, self.node, self.e, self.k))
    }

    fn network(&self) -> &OwnedNetwork {
        &self.network
    }

    fn network_mut(&mut self) -> &mut OwnedNetwork {
        &mut self.network
    }

    fn points(&self) -> &[u8] {
        &self.points
    }

    fn m(&self) -> u32 {
        self.k
    }

    fn scratch_mut(&mut self) -> &mut Lent {
        &mut self.scratch
    }

    fn arrays(&self) -> Vec<(&'static str, &Lent)> {
        vec![
            ("scratch", &self.scratch),
            ("ids", &self.ids),
            ("distances", &self.distances),
        ]
    }

    fn asked(&self) -> String {
        let (node, e, k) = (self.node, self.e, self.k);
        format!("node {node}, e {e}, k {k}")
    }

    fn tally(&self, tally: &mut Tally, pairs: &AllPairs) {
        let (points, node, e, k) = (&self.points, self.node, self.e, self.k);
        let found = pairs.plain_nearest(points, node, e, k);
        let uncut = pairs.plain_nearest(points, node, e, NONE);
        let not_farther = pairs.plain_nearest(points, node, e.saturating_add(1), k);
        let tie = |pair: &[Near]| pair[0].0 != pair[1].0 && pair[0].1 == pair[1].1;
        tally.add_k(k);
        tally.add_if(e == 0, "e of 0");
        tally.add_if(e == 1, "e of 1");
        tally.add_if(e == u32::MAX, "e of 4,294,967,295");
        tally.add_if(found.is_empty(), "nothing found");
        tally.add_if(found.len() < uncut.len(), "cut after k");
        tally.add_if(found.len() < k as usize, "fewer than k found");
        tally.add_if(not_farther != found, "a point at e that would be found");
        tally.add_if(uncut.windows(2).any(tie), "equal distances");
        tally.add_if(repeats_a_node(&found), "a node for several lockers");
        let cut = is_cut_in_a_node(&found, points);
        tally.add_if(cut, "cut in the midst of a node's lockers");
        tally.add_if(self.ids.len() > k as usize, "longer ids");
        tally.add_if(self.distances.len() > k as usize, "longer distances");
    }
}

/// An answer array with fewer than k places.
fn shortened(k: u32, random: &mut Random) -> Lent {
    Lent::junk(too_short(k.min(16) as usize, random), random)
}

/// Network N of document 01, by hand.
mod network_n {
    use super::*;

    fn call(node: u32, e: u32, k: u32) -> Nearest {
        let points = marks(N_NODES, &N_POINTS);
        let seed = u64::from(node) + u64::from(k);
        Nearest::exact(&network_n(), &points, (node, e, k), &mut Random::new(seed))
    }

    fn assert_found(node: u32, e: u32, k: u32, found: &[Near]) {
        let call = call(node, e, k);
        let outcome = call.accepted(found);
        assert_outcome(call, &outcome);
    }

    /// The rows of P8 and P9, without their empty place.
    #[test]
    fn the_rows_of_p8_and_p9() {
        assert_found(0, NONE, 2, &[(2, 7), (4, 8)]);
        assert_found(5, NONE, 2, &[(5, 0)]);
    }

    #[test]
    fn each_node_has_its_points() {
        assert_found(1, NONE, 16, &[(2, 3), (4, 10)]);
        assert_found(2, NONE, 16, &[(2, 0), (4, 7)]);
        assert_found(3, NONE, 16, &[(4, 3), (2, 10)]);
        assert_found(4, NONE, 16, &[(4, 0), (2, 7)]);
        assert_found(5, NONE, 16, &[(5, 0)]);
    }

    #[test]
    fn a_list_is_cut_after_k() {
        assert_found(0, NONE, 1, &[(2, 7)]);
        assert_found(3, NONE, 1, &[(4, 3)]);
        assert_found(4, NONE, 1, &[(4, 0)]);
    }

    #[test]
    fn a_distance_of_e_is_not_below_e() {
        assert_found(0, 7, 2, &[]);
        assert_found(0, 8, 2, &[(2, 7)]);
        assert_found(0, 9, 2, &[(2, 7), (4, 8)]);
    }

    /// "The site's own point: the nearest call with e = 0 finds nothing".
    #[test]
    fn the_own_point_has_distance_0() {
        assert_found(2, 0, 1, &[]);
        assert_found(2, 1, 1, &[(2, 0)]);
    }

    #[test]
    fn equal_distances_go_by_node() {
        let mut call = call(2, NONE, 3);
        call.points = marks(N_NODES, &[0, 4]);
        let outcome = call.accepted(&[(0, 7), (4, 7)]);
        assert_outcome(call.clone(), &outcome);
        call.k = 1;
        let outcome = call.accepted(&[(0, 7)]);
        assert_outcome(call, &outcome);
    }

    #[test]
    fn each_condition_of_its_own() {
        let assert_number = |number, change: fn(&mut Nearest)| {
            let mut call = call(0, NONE, 2);
            change(&mut call);
            assert_refused(call, number);
        };
        assert_number(6, |c| c.points[3] = 16);
        assert_number(6, |c| c.points[5] = 255);
        assert_number(6, |c| c.points.truncate(5));
        assert_number(6, |c| c.points.push(0));
        assert_number(7, |c| c.node = 6);
        assert_number(7, |c| c.node = u32::MAX);
        assert_number(9, |c| c.k = 0);
        assert_number(9, |c| c.k = 17);
        assert_number(9, |c| c.k = u32::MAX);
        assert_number(10, |c| c.ids = Lent::junk(1, &mut Random::new(0)));
        assert_number(10, |c| c.distances = Lent::junk(1, &mut Random::new(0)));
    }

    /// S is 16 × 6 + 8 × (10 + 6) × k.
    #[test]
    fn scratch_grows_with_k() {
        for (k, length) in [(1, 224), (2, 352), (16, 2_144)] {
            for (length, number) in [(length - 1, 10), (length, 0), (length + 1, 0)] {
                let mut call = call(0, NONE, k);
                call.scratch = Lent::junk(length, &mut Random::new(0));
                assert_eq!(compare(call), number);
            }
        }
    }

    #[test]
    fn old_entries_behind_the_answer_stay() {
        let mut call = call(5, NONE, 3);
        call.ids = Lent::junk(4, &mut Random::new(0));
        let old = (call.ids.part().to_vec(), call.distances.part().to_vec());
        let listing = call.run();
        assert_eq!((listing.number, listing.length), (0, 1));
        assert_eq!(call.ids.part(), [&[5], &old.0[1..]].concat());
        assert_eq!(call.distances.part(), [&[0], &old.1[1..]].concat());
    }
}

/// "Conditions are tried from 1 upward [...]; the first met is returned".
mod order {
    use super::*;

    #[test]
    fn two_conditions_give_the_lower_number() {
        assert_lower_numbers_first::<Nearest>();
    }

    /// With k = 17 the arrays would be too short as well, and 9 comes before 10.
    #[test]
    fn a_wrong_k_comes_before_short_arrays() {
        let points = marks(N_NODES, &N_POINTS);
        for k in [17, 18, 1 << 29, u32::MAX] {
            let asked = (0, NONE, 16);
            let mut call = Nearest::exact(&network_n(), &points, asked, &mut Random::new(4));
            call.k = k;
            assert_refused(call, 9);
        }
    }
}

/// Random networks, valid and damaged, against the plain calculation.
mod random {
    use super::*;

    #[test]
    fn engine_and_plain_calculation_agree() {
        let numbers = [0, 1, 2, 3, 4, 5, 6, 7, 9, 10];
        let names = [
            "e of 0",
            "e of 1",
            "e of 4,294,967,295",
            "nothing found",
            "cut after k",
            "fewer than k found",
            "a point at e that would be found",
            "equal distances",
            "a node for several lockers",
            "cut in the midst of a node's lockers",
            "longer ids",
            "longer distances",
        ];
        assert_random_calls::<Nearest>(&numbers, &names).assert_each_k(LEAST_OF_EACH);
    }
}

/// All networks of up to four nodes with roads of weight 1 or 2, and 0 to 2 lockers on each node.
mod exhaustive {
    use super::*;

    /// Tries every node with some e and k.
    fn try_points(network: &OwnedNetwork, points: &[u8], random: &mut Random) {
        let pairs = AllPairs::of(network.lend());
        for node in 0..points.len() as u32 {
            for e in [0, 1, 2, 3, 4, NONE] {
                for k in 1..=3 {
                    let call = Nearest::exact(network, points, (node, e, k), random);
                    let outcome = call.accepted_by(&pairs);
                    assert_outcome(call, &outcome);
                }
            }
        }
    }

    #[test]
    fn up_to_four_nodes() {
        let mut random = Random::new(5);
        try_all_small_points(|network, points| try_points(network, points, &mut random));
    }
}

/// Networks at document 01's bounds.
mod limits {
    use super::*;

    const FARTHEST: u32 = LARGEST_DISTANCE as u32;

    fn assert_found(network: &OwnedNetwork, points: &[u8], asked: Asked, found: &[Near]) {
        let call = Nearest::exact(network, points, asked, &mut Random::new(6));
        let outcome = call.accepted(found);
        assert_outcome(call, &outcome);
    }

    #[test]
    fn the_ends_of_the_longest_chain() {
        let network = longest_chain();
        let ends = marks(MOST_NODES, &[0, LAST]);
        let far = (LAST, FARTHEST);
        assert_found(&network, &ends, (0, NONE, 2), &[(0, 0), far]);
        assert_found(&network, &ends, (0, FARTHEST + 1, 2), &[(0, 0), far]);
        assert_found(&network, &ends, (0, FARTHEST, 2), &[(0, 0)]);
        assert_found(
            &network,
            &ends,
            (LAST, NONE, 2),
            &[(LAST, 0), (0, FARTHEST)],
        );
        let end = marks(MOST_NODES, &[LAST]);
        assert_found(&network, &end, (0, NONE, 1), &[far]);
        assert_found(&network, &end, (0, FARTHEST, 1), &[]);
    }

    #[test]
    fn both_neighbours_in_the_middle_of_the_chain_are_equally_near() {
        let network = longest_chain();
        let points = vec![1; MOST_NODES as usize];
        let middle = MOST_NODES / 2;
        let around = [(middle, 0), (middle - 1, 65_535), (middle + 1, 65_535)];
        assert_found(&network, &points, (middle, NONE, 3), &around);
        assert_found(&network, &points, (middle, NONE, 2), &around[..2]);
    }

    /// With k = 16 on the most nodes. All leaves are equally near, so they come by node.
    #[test]
    fn the_leaves_of_a_star_come_by_node() {
        let centre = 7;
        let network = largest_star(centre);
        let mut points = vec![1; MOST_NODES as usize];
        points[centre as usize] = 0;
        let leaves = (0..17).filter(|&leaf| leaf != centre);
        let first: Vec<Near> = leaves.map(|leaf| (leaf, 65_535)).collect();
        assert_found(&network, &points, (centre, NONE, 16), &first);
        let from_leaf = [(LAST, 0), (0, 131_070), (1, 131_070)];
        assert_found(&network, &points, (LAST, NONE, 3), &from_leaf);
    }

    #[test]
    fn one_node_without_a_road() {
        let network = OwnedNetwork::from_roads(1, &[]);
        for k in [1, 16] {
            for lockers in 0..=15 {
                let found = vec![(0, 0); k.min(u32::from(lockers)) as usize];
                assert_found(&network, &[lockers], (0, 0, k), &[]);
                assert_found(&network, &[lockers], (0, 1, k), &found);
                assert_found(&network, &[lockers], (0, NONE, k), &found);
            }
        }
    }

    #[test]
    fn points_that_cannot_be_reached_are_not_found() {
        let network = OwnedNetwork::from_roads(MOST_NODES, &[]);
        let points = vec![1; MOST_NODES as usize];
        assert_found(&network, &points, (LAST, NONE, 2), &[(LAST, 0)]);
    }

    #[test]
    fn a_grid_of_255_by_257_nodes() {
        let network = largest_grid(weight_by_product);
        let node = MOST_NODES / 2;
        let row = relaxed_row(network.lend(), node);
        for points in [each(100), several_on_each(100)] {
            for (e, k) in [(NONE, 1), (NONE, 3), (200, 3), (1, 1), (0, 1), (NONE, 16)] {
                let found = nearest_in(&row, &points, e, k);
                assert_found(&network, &points, (node, e, k), &found);
            }
        }
    }
}
