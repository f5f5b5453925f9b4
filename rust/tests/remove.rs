//! Remove, compared with document 01 and with a table built afresh.

mod common;

use common::all_pairs::AllPairs;
use common::call::{assert_lower_numbers_first, assert_random_calls};
use common::call::{assert_refused, compare, Call, LEAST_OF_EACH};
use common::change::{assert_change, assert_damaged_tables, assert_small_networks};
use common::change::{Change, ChangeCall, Kind};
use common::change_cases::{assert_changes, assert_one_by_one, assert_own_conditions};
use common::change_cases::{assert_scratch_of_n, call_on_n};
use common::largest::{each, largest_grid, largest_star, longest_chain, several_on_each};
use common::largest::{LAST, MOST_NODES};
use common::network::{marks, N_POINTS};
use common::random::Random;
use common::shapes::{chain, random_network, ring, weight_by_product, weighted};
use common::table::PlainTable;
use overlap::calls::{insert, remove, NONE};

#[derive(Clone)]
struct Removal;

impl Kind for Removal {
    const NAME: &'static str = "remove";
    const CALL: ChangeCall = remove;
    const REFUSED_AT: u8 = 0;
    const ACCEPTED_AT: [u8; 5] = [1, 1, 2, 3, 15];

    fn after(lockers: u8) -> u8 {
        lockers - 1
    }
}

type Remove = Change<Removal>;

/// Network N of document 01, by hand.
mod network_n {
    use super::*;

    /// P10 undone: the insertion of 0 changed four rows.
    #[test]
    fn four_rows_change_when_0_goes_again() {
        let mut call: Remove = call_on_n(&[0, 2, 4, 5], 0, 2);
        let update = call.run();
        assert_eq!((update.number, update.changed), (0, 4));
        assert_eq!(call.table.words().row(0), [(2, 7), (4, 8)]);
        assert_eq!(call.table.words().row(2), [(2, 0), (4, 7)]);
        assert_eq!(call.points, [0, 0, 1, 0, 1, 1]);
    }

    #[test]
    fn the_last_point_of_a_part() {
        let mut call: Remove = call_on_n(&N_POINTS, 5, 2);
        let update = call.run();
        assert_eq!((update.number, update.changed), (0, 1));
        assert_eq!(call.table.words().row(5), [(NONE, NONE), (NONE, NONE)]);
    }

    /// From 1 locker on the node to 15.
    #[test]
    fn every_point_and_every_k() {
        for node in N_POINTS {
            for places in 2..=17 {
                let mut points = N_POINTS.to_vec();
                for _ in 1..=15 {
                    assert_eq!(compare(call_on_n::<Removal>(&points, node, places)), 0);
                    points.push(node);
                }
            }
        }
    }

    #[test]
    fn each_condition_of_its_own() {
        let call = |node| -> Remove { call_on_n(&N_POINTS, node, 2) };
        assert_own_conditions(&call(2));
        for node in [0, 1, 3] {
            assert_refused(call(node), 11);
        }
    }

    #[test]
    fn scratch_grows_with_places() {
        assert_scratch_of_n::<Removal>(|places| call_on_n(&N_POINTS, 2, places));
    }
}

/// "Conditions are tried from 1 upward [...]; the first met is returned".
mod order {
    use super::*;

    #[test]
    fn two_conditions_give_the_lower_number() {
        assert_lower_numbers_first::<Remove>();
    }
}

/// Random networks, valid and damaged, against the plain calculation.
mod random {
    use super::*;

    #[test]
    fn engine_and_plain_calculation_agree() {
        let numbers = [0, 1, 2, 3, 4, 5, 6, 7, 8, 10, 11];
        let tally = assert_random_calls::<Remove>(&numbers, &Remove::TALLIED);
        tally.assert_each_places(LEAST_OF_EACH);
    }
}

/// All networks of up to four nodes with roads of weight 1 or 2, and 0 to 2 lockers on each node.
mod exhaustive {
    use super::*;

    #[test]
    fn up_to_four_nodes() {
        assert_small_networks::<Removal>(&[2, 3, 17]);
    }
}

/// Where removals slip: "Removal fills a row from its neighbours before theirs are mended, and the
/// removed point's old distance survives."
mod old_distances {
    use super::*;

    /// Rows in the middle hold the point that goes, and so do those of their neighbours: what comes
    /// in its place comes from far away.
    #[test]
    fn on_chains_and_rings() {
        let mut random = Random::new(9);
        for n in 2..=30 {
            for shape in [chain, ring] {
                let network = weighted(n, &shape(n), |_, _| 1);
                let pairs = AllPairs::of(network.lend());
                for node in 0..n {
                    let all = (0..n).collect();
                    for points in [vec![0, node, n - 1], vec![node], vec![node; 3], all] {
                        let points = marks(n, &points);
                        let table = PlainTable::of(&pairs, &points, 2);
                        let call = Remove::exact(&network, &points, node, &table, &mut random);
                        assert_change(call, &pairs, &mut random);
                    }
                }
            }
        }
    }
}

/// Removals one behind the other from one table.
mod one_by_one {
    use super::*;

    #[test]
    fn until_no_node_has_a_locker() {
        assert_one_by_one::<Removal>(1_000, |table| {
            assert!(table.ids.iter().all(|&id| id == NONE));
        });
    }

    /// A point that is inserted again brings the same table and changes as many rows.
    #[test]
    fn a_removal_undone() {
        for seed in 0..4_000 {
            let mut random = Random::new(seed);
            let network = random_network(&mut random);
            let pairs = AllPairs::of(network.lend());
            let mut call = Remove::random(&network, &pairs, &mut random);
            let (points, table) = (call.points.clone(), call.table.words());
            let removed = call.run();
            let scratch = call.scratch.part_mut();
            let (points_mut, lent) = (&mut call.points, call.table.lend_mut());
            let inserted = insert(network.lend(), points_mut, call.node, scratch, lent);
            assert_eq!(removed, inserted);
            assert_eq!((call.points, call.table.words()), (points, table));
        }
    }
}

/// Tables that the check would deny.
mod damaged_tables {
    use super::*;

    #[test]
    fn the_marks_change_and_all_else_is_kept() {
        assert_damaged_tables::<Removal>(10_000);
    }
}

/// Networks at document 01's bounds.
mod limits {
    use super::*;

    #[test]
    fn the_longest_chain() {
        let network = longest_chain();
        let four = marks(MOST_NODES, &[0, 1, LAST / 2, LAST]);
        assert_changes::<Removal>(&network, &four, &[LAST / 2, 1, LAST, 0], 2);
        assert_changes::<Removal>(&network, &each(1_000), &[0, 30_000], 17);
        let several = several_on_each(1_000);
        assert_changes::<Removal>(&network, &several, &[0, 31_000, 31_000], 17);
    }

    #[test]
    fn a_star_of_the_most_nodes() {
        let network = largest_star(7);
        let four = marks(MOST_NODES, &[LAST, 7, 0, 1]);
        assert_changes::<Removal>(&network, &four, &[0, 7, 1, LAST], 2);
        let centre = marks(MOST_NODES, &[7, 7, 7, LAST]);
        assert_changes::<Removal>(&network, &centre, &[7, 7, 7], 2);
    }

    #[test]
    fn a_grid_of_255_by_257_nodes() {
        let network = largest_grid(weight_by_product);
        assert_changes::<Removal>(&network, &each(100), &[0, 32_700, 65_500], 2);
        assert_changes::<Removal>(&network, &each(1_000), &[30_000], 17);
        assert_changes::<Removal>(&network, &several_on_each(1_000), &[31_000, 31_000], 17);
    }
}
