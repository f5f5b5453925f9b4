//! Build, compared with document 01.

mod common;

use common::all_pairs::AllPairs;
use common::call::{assert_lower_numbers_first, assert_outcome, assert_random_calls};
use common::call::{assert_refused, compare, Call, Outcome, LEAST_OF_EACH};
use common::faults::Fault;
use common::inputs::{enough, some_places, some_points, spoil_points};
use common::largest::{each, largest_grid, largest_star, longest_chain, most_roads};
use common::largest::{several_on_each, LAST, MOST_NODES};
use common::lent::Lent;
use common::network::{marks, network_n, OwnedNetwork, N_NODES, N_POINTS};
use common::numbers::{build_number, plain_scratch_len};
use common::random::Random;
use common::rows::{is_cut_in_a_node, repeats_a_node, Near};
use common::shapes::{far_grid, random_network, random_parts};
use common::shapes::{try_all_small_points, weight_by_product, weighted};
use common::table::{OwnedTable, PlainTable};
use common::tally::Tally;
use overlap::calls::{build, NONE};

/// Everything that a call is lent.
#[derive(Clone)]
struct Build {
    network: OwnedNetwork,
    points: Vec<u8>,
    table: OwnedTable,
    scratch: Lent,
}

impl Build {
    /// A call with arrays that are just long enough and full of junk. The network is an accepted
    /// one and K at most 17.
    fn exact(network: &OwnedNetwork, points: &[u8], places: u32, random: &mut Random) -> Self {
        Self {
            network: network.clone(),
            points: points.to_vec(),
            table: OwnedTable::junk(points.len(), places, random),
            scratch: Lent::junk(plain_scratch_len(network.lend(), places), random),
        }
    }

    /// "Build fills it." "An accepted call with scratch leaves it all zero."
    fn accepted(&self, table: &PlainTable) -> Outcome<Self> {
        let mut left = self.clone();
        left.table = left.table.with(table);
        left.scratch = left.scratch.cleared();
        (0, left)
    }
}

impl Call for Build {
    type Answer = u32;

    const OWN_FAULTS: &'static [(u32, Fault<Self>)] = &[
        (6, |c, r| spoil_points(&mut c.points, r)),
        (8, |c, r| c.table.spoil_places(r)),
        (8, |c, r| c.table.spoil_lengths(r)),
    ];

    fn random(network: &OwnedNetwork, _: &AllPairs, random: &mut Random) -> Self {
        let (points, places) = (some_points(network, random), some_places(random));
        let mut call = Self::exact(network, &points, places, random);
        call.scratch = Lent::junk(enough(call.scratch.len(), random), random);
        call
    }

    fn run(&mut self) -> u32 {
        let (network, scratch) = (self.network.lend(), self.scratch.part_mut());
        build(network, &self.points, scratch, self.table.lend_mut())
    }

    fn number(&self) -> u32 {
        let (network, scratch) = (self.network.lend(), self.scratch.len());
        build_number(network, &self.points, self.table.sizes(), scratch)
    }

    fn accepted_by(&self, pairs: &AllPairs) -> Outcome<Self> {
        self.accepted(&PlainTable::of(pairs, &self.points, self.table.places))
    }

    fn network(&self) -> &OwnedNetwork {
        &self.network
    }

    fn network_mut(&mut self) -> &mut OwnedNetwork {
        &mut self.network
    }

    fn points(&self) -> &[u8] {
        &self.points
    }

    fn m(&self) -> u32 {
        self.table.places
    }

    fn scratch_mut(&mut self) -> &mut Lent {
        &mut self.scratch
    }

    fn arrays(&self) -> Vec<(&'static str, &Lent)> {
        let [ids, distances] = self.table.arrays();
        vec![("scratch", &self.scratch), ids, distances]
    }

    fn asked(&self) -> String {
        format!("build, K {}", self.table.places)
    }

    fn tally(&self, tally: &mut Tally, pairs: &AllPairs) {
        let table = PlainTable::of(pairs, &self.points, self.table.places);
        let rows = || (0..table.nodes()).map(|node| table.row(node));
        let differs = |a: Near, b: Near| a.0 != b.0 && a.1 == b.1;
        let is_cut = |row: &[Near]| row.windows(2).any(|pair| differs(pair[0], pair[1]));
        let happened = [
            table.ids.iter().all(|&id| id == NONE),
            table.ids.contains(&NONE),
            !table.ids.contains(&NONE),
            rows().any(|row| is_cut(&row) && row.last() != Some(&(NONE, NONE))),
            pairs.row(0).contains(&None),
            rows().any(|row| repeats_a_node(&row)),
            rows().any(|row| is_cut_in_a_node(&row, &self.points)),
        ];
        tally.add_places(self.table.places);
        for (happened, name) in happened.into_iter().zip(TALLIED) {
            tally.add_if(happened, name);
        }
    }
}

/// The names under which things are counted.
const TALLIED: [&str; 7] = [
    "a table of empty places",
    "an empty place",
    "all rows full",
    "equal distances in a full row",
    "a node that can't be reached",
    "a row that holds a node several times",
    "a row cut in the midst of a node's lockers",
];

/// Network N of document 01, by hand.
mod network_n {
    use super::*;

    fn call(places: u32) -> Build {
        let points = marks(N_NODES, &N_POINTS);
        Build::exact(&network_n(), &points, places, &mut Random::new(2))
    }

    /// P8: "row 0, K 2: (2, 7), (4, 8)". P9: "row 5, K 2: (5, 0), (NONE, NONE)".
    #[test]
    fn the_rows_of_p8_and_p9() {
        let mut call = call(2);
        assert_eq!(call.run(), 0);
        let table = call.table.words();
        assert_eq!(table.row(0), [(2, 7), (4, 8)]);
        assert_eq!(table.row(5), [(5, 0), (NONE, NONE)]);
    }

    #[test]
    fn the_whole_table() {
        let ids = [2, 4, 2, 4, 2, 4, 4, 2, 4, 2, 5, NONE];
        let distances = [7, 8, 3, 10, 0, 7, 3, 10, 0, 7, 0, NONE];
        let table = PlainTable {
            places: 2,
            ids: ids.to_vec(),
            distances: distances.to_vec(),
        };
        let call = call(2);
        let outcome = call.accepted(&table);
        assert_outcome(call, &outcome);
    }

    #[test]
    fn without_points_all_places_are_empty() {
        for places in 2..=17 {
            let mut call = call(places);
            call.points = vec![0; 6];
            assert_eq!(compare(call.clone()), 0);
            assert_eq!(call.run(), 0);
            assert!(call.table.ids.part().iter().all(|&id| id == NONE));
        }
    }

    #[test]
    fn each_condition_of_its_own() {
        let assert_number = |number, change: fn(&mut Build)| {
            let mut call = call(2);
            change(&mut call);
            assert_refused(call, number);
        };
        let other = |length| Lent::junk(length, &mut Random::new(0));
        assert_number(6, |c| c.points[3] = 16);
        assert_number(6, |c| c.points[5] = 255);
        assert_number(6, |c| c.points.truncate(5));
        assert_number(6, |c| c.points.push(0));
        for places in [0, 1, 3, 17, 18, 65_538, u32::MAX] {
            let mut call = call(2);
            call.table.places = places;
            assert_refused(call, 8);
        }
        for places in [0, 1, 18, 19] {
            let mut call = call(17);
            call.table = OwnedTable::junk(6, places, &mut Random::new(0));
            call.scratch = other(9_999);
            assert_refused(call, 8);
        }
        for length in [0, 11, 13, 18] {
            let mut call = call(2);
            call.table.ids = other(length);
            assert_refused(call.clone(), 8);
            std::mem::swap(&mut call.table.ids, &mut call.table.distances);
            assert_refused(call.clone(), 8);
            call.table.ids = other(length);
            assert_refused(call, 8);
        }
    }

    /// S is 16 × 6 + 8 × (10 + 6) × K.
    #[test]
    fn scratch_grows_with_places() {
        for (places, length) in [(2, 352), (3, 480), (17, 2_272)] {
            let lengths = [(0, 10), (length - 1, 10), (length, 0), (length + 1, 0)];
            for (length, number) in lengths.into_iter().chain([(9_999, 0)]) {
                for seed in 0..20 {
                    let mut call = call(places);
                    call.scratch = Lent::junk(length, &mut Random::new(seed));
                    assert_eq!(compare(call), number);
                }
            }
        }
    }
}

/// "Conditions are tried from 1 upward [...]; the first met is returned".
mod order {
    use super::*;

    #[test]
    fn two_conditions_give_the_lower_number() {
        assert_lower_numbers_first::<Build>();
    }
}

/// Random networks, valid and damaged, against the plain calculation.
mod random {
    use super::*;

    #[test]
    fn engine_and_plain_calculation_agree() {
        let numbers = [0, 1, 2, 3, 4, 5, 6, 8, 10];
        assert_random_calls::<Build>(&numbers, &TALLIED).assert_each_places(LEAST_OF_EACH);
    }
}

/// All networks of up to four nodes with roads of weight 1 or 2, and 0 to 2 lockers on each node.
mod exhaustive {
    use super::*;

    #[test]
    fn up_to_four_nodes() {
        let mut random = Random::new(5);
        try_all_small_points(|network, points| {
            for places in [2, 3, 4, 17] {
                compare(Build::exact(network, points, places, &mut random));
            }
        });
    }
}

/// Networks and points that are out of the ordinary.
mod special {
    use super::*;

    const TRIES: u64 = 2_000;

    #[test]
    fn every_node_a_point() {
        for seed in 0..TRIES {
            let mut random = Random::new(seed);
            let network = random_network(&mut random);
            let points = vec![random.pick(&[1, 1, 2, 15]); network.starts.len() - 1];
            let places = some_places(&mut random);
            compare(Build::exact(&network, &points, places, &mut random));
        }
    }

    #[test]
    fn fewer_points_than_places() {
        for seed in 0..TRIES {
            let mut random = Random::new(seed);
            let network = random_network(&mut random);
            let n = network.starts.len() as u32 - 1;
            let places = some_places(&mut random);
            let few: Vec<u32> = (1..places).map(|_| random.below(n)).collect();
            compare(Build::exact(&network, &marks(n, &few), places, &mut random));
        }
    }

    /// Many equal distances, so that the node decides.
    #[test]
    fn equal_weights_and_parts_without_a_way_between_them() {
        for seed in 0..TRIES {
            let mut random = Random::new(seed);
            let n = random.between(1, 40);
            let weight = random.pick(&[1, 65_535]);
            let network = weighted(n, &random_parts(n, &mut random), |_, _| weight);
            let points = some_points(&network, &mut random);
            let places = some_places(&mut random);
            compare(Build::exact(&network, &points, places, &mut random));
        }
    }

    #[test]
    fn one_node_without_a_road() {
        let network = OwnedNetwork::from_roads(1, &[]);
        for places in 2..=17 {
            for lockers in 0..=15 {
                let call = Build::exact(&network, &[lockers], places, &mut Random::new(7));
                assert_eq!(compare(call), 0);
            }
        }
    }

    /// The arrays hold a table already, of these points or of others.
    #[test]
    fn a_table_built_again() {
        for seed in 0..TRIES {
            let mut random = Random::new(seed);
            let network = random_network(&mut random);
            let pairs = AllPairs::of(network.lend());
            let mut call = Build::random(&network, &pairs, &mut random);
            for _ in 0..3 {
                let outcome = call.accepted_by(&pairs);
                assert_outcome(call.clone(), &outcome);
                call.table = outcome.1.table;
                if random.once_in(2) {
                    call.points = some_points(&network, &mut random);
                }
            }
        }
    }
}

/// Networks at document 01's bounds.
mod limits {
    use super::*;

    fn assert_table(network: &OwnedNetwork, points: &[u8], places: u32) -> PlainTable {
        let call = Build::exact(network, points, places, &mut Random::new(6));
        let table = PlainTable::of_large(network, points, places);
        let outcome = call.accepted(&table);
        assert_outcome(call, &outcome);
        table
    }

    /// "Every distance is at most 4,294,770,690."
    #[test]
    fn the_longest_chain() {
        let network = longest_chain();
        let ends = assert_table(&network, &marks(MOST_NODES, &[0, LAST]), 2);
        assert_eq!(ends.row(0), [(0, 0), (LAST, 4_294_770_690)]);
        assert_eq!(ends.row(LAST), [(LAST, 0), (0, 4_294_770_690)]);
        let two_far = assert_table(&network, &marks(MOST_NODES, &[0, LAST, LAST]), 3);
        let far = (LAST, 4_294_770_690);
        assert_eq!(two_far.row(0), [(0, 0), far, far]);
        assert_table(&network, &each(1_000), 17);
        assert_table(&network, &several_on_each(1_000), 17);
    }

    #[test]
    fn a_star_of_the_most_nodes() {
        let network = largest_star(7);
        assert_table(&network, &marks(MOST_NODES, &[0, 7, LAST]), 2);
        assert_table(&network, &each(20_000), 3);
    }

    #[test]
    fn the_most_nodes_without_a_road() {
        let network = OwnedNetwork::from_roads(MOST_NODES, &[]);
        assert_table(&network, &each(1), 2);
        assert_table(&network, &several_on_each(1), 17);
    }

    #[test]
    fn a_grid_of_255_by_257_nodes() {
        let network = largest_grid(weight_by_product);
        assert_table(&network, &each(100), 2);
        assert_table(&network, &each(100), 17);
        assert_table(&network, &several_on_each(100), 17);
    }

    #[test]
    fn a_grid_of_255_by_257_nodes_and_equal_weights() {
        let network = largest_grid(|_, _| 1);
        assert_table(&network, &each(100), 5);
    }

    #[test]
    fn the_most_arcs() {
        let network = most_roads(weight_by_product);
        assert_eq!(network.neighbours.len(), 524_288);
        assert_table(&network, &each(1_000), 2);
        assert_table(&network, &each(1), 2);
        assert_table(&network, &several_on_each(1), 2);
    }

    /// A long chain leads to a grid, in which many nodes have distances near the largest one.
    #[test]
    fn many_nodes_at_large_distances() {
        let (length, rows, columns) = (64_000, 30, 50);
        let n = length + rows * columns;
        let network = far_grid(length, rows, columns);
        assert_table(&network, &marks(n, &[0, 1, 2]), 3);
    }
}
