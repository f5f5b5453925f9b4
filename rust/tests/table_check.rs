//! The table check, compared with document 01: with the table of a plain calculation, word by word.

mod common;

use common::all_pairs::AllPairs;
use common::call::{assert_lower_numbers_first, assert_outcome, assert_random_calls};
use common::call::{assert_refused, compare, Call, Outcome, LEAST_OF_EACH};
use common::faults::Fault;
use common::inputs::{some_node, some_places, some_points, spoil_points};
use common::largest::{each, largest_grid, longest_chain, several_on_each};
use common::lent::Lent;
use common::network::{marks, network_n, OwnedNetwork, N_NODES, N_POINTS};
use common::numbers::table_check_number;
use common::random::Random;
use common::rows::repeats_a_node;
use common::shapes::{random_network, try_all_small_points, weight_by_product};
use common::table::{OwnedTable, PlainTable};
use common::table_damage::{damage, KINDS};
use common::tally::Tally;
use overlap::calls::{table_check, Verdict, NONE};

/// Everything that a call is lent.
#[derive(Clone)]
struct TableCheck {
    network: OwnedNetwork,
    points: Vec<u8>,
    table: OwnedTable,
}

impl TableCheck {
    fn exact(
        network: &OwnedNetwork,
        points: &[u8],
        table: &PlainTable,
        random: &mut Random,
    ) -> Self {
        Self {
            network: network.clone(),
            points: points.to_vec(),
            table: OwnedTable::holding(table, random),
        }
    }

    fn accepted(&self, yes: bool) -> Outcome<Self> {
        let verdict = Verdict {
            number: 0,
            yes: u32::from(yes),
        };
        (verdict, self.clone())
    }

    /// "yes exactly when both arrays are the table that build would write".
    fn is_right(&self, pairs: &AllPairs) -> bool {
        self.table.words() == PlainTable::of(pairs, &self.points, self.table.places)
    }
}

impl Call for TableCheck {
    type Answer = Verdict;

    const HAS_SCRATCH: bool = false;

    const OWN_FAULTS: &'static [(u32, Fault<Self>)] = &[
        (6, |c, r| spoil_points(&mut c.points, r)),
        (8, |c, r| c.table.spoil_places(r)),
        (8, |c, r| c.table.spoil_lengths(r)),
    ];

    /// A table that is right, or damaged in any way, or that of some other points.
    fn random(network: &OwnedNetwork, pairs: &AllPairs, random: &mut Random) -> Self {
        let points = some_points(network, random);
        let mut other = points.clone();
        if random.once_in(6) {
            step_lockers(&mut other, network, random);
        }
        let mut table = PlainTable::of(pairs, &other, some_places(random));
        let times = random.pick(&[0, 0, 1, 1, 3]);
        damage(&mut table, times, random);
        Self::exact(network, &points, &table, random)
    }

    fn run(&mut self) -> Verdict {
        table_check(self.network.lend(), &self.points, self.table.lend())
    }

    fn number(&self) -> u32 {
        table_check_number(self.network.lend(), &self.points, self.table.sizes())
    }

    fn accepted_by(&self, pairs: &AllPairs) -> Outcome<Self> {
        self.accepted(self.is_right(pairs))
    }

    fn network(&self) -> &OwnedNetwork {
        &self.network
    }

    fn network_mut(&mut self) -> &mut OwnedNetwork {
        &mut self.network
    }

    fn points(&self) -> &[u8] {
        &self.points
    }

    fn scratch_mut(&mut self) -> &mut Lent {
        unreachable!("both checks have no scratch")
    }

    fn arrays(&self) -> Vec<(&'static str, &Lent)> {
        self.table.arrays().to_vec()
    }

    fn asked(&self) -> String {
        format!("table check, K {}", self.table.places)
    }

    fn tally(&self, tally: &mut Tally, pairs: &AllPairs) {
        let right = self.is_right(pairs);
        tally.add_places(self.table.places);
        tally.add_if(right, "yes");
        tally.add_if(!right, "no");
        let table = self.table.words();
        let mut rows = (0..table.nodes()).map(|node| table.row(node));
        let repeats = rows.any(|row| repeats_a_node(&row));
        tally.add_if(
            right && repeats,
            "yes, of a row that holds a node several times",
        );
    }
}

/// One locker more or less on any node.
fn step_lockers(points: &mut [u8], network: &OwnedNetwork, random: &mut Random) {
    let lockers = &mut points[some_node(network, random) as usize];
    *lockers = match *lockers {
        0 => 1,
        15 => 14,
        other => random.pick(&[other - 1, other + 1]),
    };
}

/// Network N of document 01, by hand.
mod network_n {
    use super::*;

    fn call() -> TableCheck {
        let (network, points) = (network_n(), marks(N_NODES, &N_POINTS));
        let table = PlainTable::of(&AllPairs::of(network.lend()), &points, 2);
        TableCheck::exact(&network, &points, &table, &mut Random::new(3))
    }

    fn assert_verdict(call: TableCheck, yes: bool) {
        let outcome = call.accepted(yes);
        assert_outcome(call, &outcome);
    }

    #[test]
    fn the_table_is_right() {
        assert_verdict(call(), true);
    }

    /// Each word by itself, to each of some others.
    #[test]
    fn no_word_can_be_another() {
        for at in 0..12 {
            for word in (0..=12).chain([65_535, 65_536, NONE - 65_536, NONE - 1, NONE]) {
                let mut by_id = call();
                let right = by_id.table.ids.part()[at] == word;
                by_id.table.ids.part_mut()[at] = word;
                assert_verdict(by_id, right);
                let mut by_distance = call();
                let right = by_distance.table.distances.part()[at] == word;
                by_distance.table.distances.part_mut()[at] = word;
                assert_verdict(by_distance, right);
            }
        }
    }

    /// Each number of lockers but the right one.
    #[test]
    fn the_table_of_other_marks_is_wrong() {
        for node in 0..6 {
            for lockers in 0..=15 {
                let mut call = call();
                let right = call.points[node] == lockers;
                call.points[node] = lockers;
                assert_verdict(call, right);
            }
        }
    }

    /// P7's road 2-4 of 6.
    #[test]
    fn the_table_of_another_weight_is_wrong() {
        let roads = [(0, 1, 4), (0, 3, 5), (1, 2, 3), (2, 4, 6), (3, 4, 3)];
        let mut call = call();
        call.network = OwnedNetwork::from_roads(N_NODES, &roads);
        assert_verdict(call, false);
    }

    #[test]
    fn each_condition_of_its_own() {
        let assert_number = |number, change: fn(&mut TableCheck)| {
            let mut call = call();
            change(&mut call);
            assert_refused(call, number);
        };
        assert_number(6, |c| c.points[3] = 16);
        assert_number(6, |c| c.points[5] = 255);
        assert_number(6, |c| c.points.truncate(5));
        assert_number(6, |c| c.points.push(0));
        assert_number(8, |c| c.table.places = 0);
        assert_number(8, |c| c.table.places = 1);
        assert_number(8, |c| c.table.places = 3);
        assert_number(8, |c| c.table.places = 18);
        assert_number(8, |c| c.table.places = u32::MAX);
        assert_number(8, |c| c.table = OwnedTable::junk(6, 1, &mut Random::new(0)));
        assert_number(8, |c| {
            c.table = OwnedTable::junk(6, 18, &mut Random::new(0))
        });
        assert_number(8, |c| c.table.ids = Lent::junk(11, &mut Random::new(0)));
        assert_number(8, |c| {
            c.table.distances = Lent::junk(13, &mut Random::new(0));
        });
    }
}

/// "Conditions are tried from 1 upward [...]; the first met is returned".
mod order {
    use super::*;

    #[test]
    fn two_conditions_give_the_lower_number() {
        assert_lower_numbers_first::<TableCheck>();
    }
}

/// Random networks, valid and damaged, against the plain calculation.
mod random {
    use super::*;

    #[test]
    fn engine_and_plain_calculation_agree() {
        let numbers = [0, 1, 2, 3, 4, 5, 6, 8];
        let of_several = "yes, of a row that holds a node several times";
        let tally = assert_random_calls::<TableCheck>(&numbers, &["yes", "no", of_several]);
        tally.assert_each_places(LEAST_OF_EACH);
    }
}

/// Small networks, and all that can stand in their tables.
mod exhaustive {
    use super::*;

    /// Every word of a right table by itself, to each number that means something here.
    #[test]
    fn each_word_of_the_tables_of_up_to_four_nodes() {
        try_all_small_points(|network, points| {
            let pairs = AllPairs::of(network.lend());
            let table = PlainTable::of(&pairs, points, 2);
            assert!(is_yes(network, points, &table));
            for at in 0..table.ids.len() {
                for word in [0, 1, 2, 3, 4, NONE - 1, NONE] {
                    let (mut by_id, mut by_distance) = (table.clone(), table.clone());
                    by_id.ids[at] = word;
                    by_distance.distances[at] = word;
                    assert_eq!(is_yes(network, points, &by_id), by_id == table);
                    let right = by_distance == table;
                    assert_eq!(is_yes(network, points, &by_distance), right);
                }
            }
        });
    }

    /// All tables of these words, so that exactly one of them is right.
    #[test]
    fn all_tables_of_two_nodes() {
        for roads in [&[][..], &[(0, 1, 1)], &[(0, 1, 2)]] {
            let network = OwnedNetwork::from_roads(2, roads);
            for points in all_lockers_of_two_nodes() {
                let right = all_tables().filter(|table| is_yes(&network, &points, table));
                let table = PlainTable::of(&AllPairs::of(network.lend()), &points, 2);
                assert_eq!(right.collect::<Vec<_>>(), [table]);
            }
        }
    }

    fn all_lockers_of_two_nodes() -> impl Iterator<Item = [u8; 2]> {
        let lockers = [0, 1, 2, 3, 15];
        lockers
            .into_iter()
            .flat_map(move |a| lockers.map(|b| [a, b]))
    }

    fn is_yes(network: &OwnedNetwork, points: &[u8], table: &PlainTable) -> bool {
        let verdict = table_check(network.lend(), points, table.lend());
        verdict.accepted().unwrap()
    }

    fn all_tables() -> impl Iterator<Item = PlainTable> {
        let (ids, distances) = ([0, 1, NONE], [0, 1, 2, 3, NONE]);
        let entries = ids.len() * distances.len();
        (0..entries.pow(4)).map(move |mut number| {
            let mut table = PlainTable {
                places: 2,
                ids: vec![],
                distances: vec![],
            };
            for _ in 0..4 {
                table.ids.push(ids[number % 3]);
                table.distances.push(distances[number / 3 % 5]);
                number /= entries;
            }
            table
        })
    }
}

/// Every kind of damage, one at a time.
mod damage_by_kind {
    use super::*;

    #[test]
    fn is_found_where_it_changes_a_word() {
        let mut tally = Tally::default();
        for seed in 0..4_000 {
            let mut random = Random::new(seed);
            let network = random_network(&mut random);
            let pairs = AllPairs::of(network.lend());
            let points = some_points(&network, &mut random);
            let places = some_places(&mut random);
            let built = PlainTable::built(&network, &points, places, &mut random);
            for (name, damage) in KINDS {
                let mut table = built.clone();
                damage(&mut table, &mut random);
                let call = TableCheck::exact(&network, &points, &table, &mut random);
                assert_eq!(call.is_right(&pairs), table == built);
                tally.add_if(table != built, name);
                let outcome = call.accepted(table == built);
                assert_outcome(call, &outcome);
            }
        }
        tally.print();
        for (name, _) in KINDS {
            tally.assert_at_least(500, name);
        }
    }
}

/// Tables of networks or points that differ a little.
mod near_tables {
    use super::*;

    /// One row of the table of the points with one locker more or less: right in itself, and wrong
    /// where it differs.
    #[test]
    fn a_row_of_one_locker_more_or_less() {
        let mut verdicts = [0, 0];
        for seed in 0..20_000 {
            let mut random = Random::new(seed);
            let network = random_network(&mut random);
            let pairs = AllPairs::of(network.lend());
            let (points, places) = (some_points(&network, &mut random), some_places(&mut random));
            let mut other = points.clone();
            step_lockers(&mut other, &network, &mut random);
            let mut table = PlainTable::of(&pairs, &points, places);
            let (right, wrong) = (table.clone(), PlainTable::of(&pairs, &other, places));
            let row = table.part(some_node(&network, &mut random));
            table.ids[row.clone()].copy_from_slice(&wrong.ids[row.clone()]);
            table.distances[row.clone()].copy_from_slice(&wrong.distances[row]);
            let yes = table == right;
            verdicts[usize::from(yes)] += 1;
            let call = TableCheck::exact(&network, &points, &table, &mut random);
            let outcome = call.accepted(yes);
            assert_outcome(call, &outcome);
        }
        assert!(verdicts.iter().all(|&count| count > 2_000), "{verdicts:?}");
    }

    /// The table of the network with one road longer or shorter by 1.
    #[test]
    fn a_road_of_another_weight() {
        let mut verdicts = [0, 0];
        for seed in 0..4_000 {
            let mut random = Random::new(seed);
            let network = random_network(&mut random);
            let points = some_points(&network, &mut random);
            let table = PlainTable::built(&network, &points, 3, &mut random);
            let other = with_a_weight_changed(&network, &mut random);
            let call = TableCheck::exact(&other, &points, &table, &mut random);
            let right = call.is_right(&AllPairs::of(other.lend()));
            verdicts[usize::from(right)] += 1;
            assert_eq!(compare(call), 0);
        }
        assert!(verdicts.iter().all(|&count| count > 500), "{verdicts:?}");
    }

    fn with_a_weight_changed(network: &OwnedNetwork, random: &mut Random) -> OwnedNetwork {
        let mut arcs = Vec::new();
        let n = network.starts.len() - 1;
        for node in 0..n {
            for arc in network.starts[node] as usize..network.starts[node + 1] as usize {
                let (to, weight) = (network.neighbours[arc], network.weights[arc]);
                if (node as u32) < to {
                    arcs.push((node as u32, to, weight));
                }
            }
        }
        if let Some(road) = random.index(arcs.len()) {
            let weight = &mut arcs[road].2;
            *weight = if *weight == 65_535 || random.once_in(2) && *weight > 1 {
                *weight - 1
            } else {
                *weight + 1
            };
        }
        OwnedNetwork::from_roads(n as u32, &arcs)
    }
}

/// Networks at document 01's bounds.
mod limits {
    use super::*;

    /// The table is right, and with its last word or one in the middle changed it is not.
    fn assert_checked(network: &OwnedNetwork, points: &[u8], places: u32) {
        let mut table = PlainTable::of_large(network, points, places);
        let verdict = |t: &PlainTable| table_check(network.lend(), points, t.lend());
        assert_eq!(verdict(&table).accepted(), Ok(true));
        for at in [table.ids.len() - 1, table.ids.len() / 2] {
            table.distances[at] -= 1;
            assert_eq!(verdict(&table).accepted(), Ok(false));
            table.distances[at] += 1;
            table.ids[at] -= 1;
            assert_eq!(verdict(&table).accepted(), Ok(false));
            table.ids[at] += 1;
        }
        assert_eq!(verdict(&table).accepted(), Ok(true));
    }

    #[test]
    fn the_longest_chain() {
        let network = longest_chain();
        assert_checked(&network, &each(65_534), 2);
        assert_checked(&network, &each(1_000), 17);
        assert_checked(&network, &several_on_each(1_000), 17);
    }

    #[test]
    fn a_grid_of_255_by_257_nodes() {
        let network = largest_grid(weight_by_product);
        assert_checked(&network, &each(100), 2);
        assert_checked(&network, &each(100), 17);
        assert_checked(&network, &several_on_each(100), 17);
    }
}
