//! Insert, compared with document 01 and with a table built afresh.

mod common;

use common::call::{assert_lower_numbers_first, assert_random_calls};
use common::call::{assert_refused, compare, Call, LEAST_OF_EACH};
use common::change::{assert_damaged_tables, assert_small_networks, Change, ChangeCall, Kind};
use common::change_cases::{assert_changes, assert_one_by_one, assert_own_conditions};
use common::change_cases::{assert_scratch_of_n, call_on_n};
use common::largest::{each, largest_grid, largest_star, longest_chain, several_on_each};
use common::largest::{LAST, MOST_NODES};
use common::network::{marks, N_NODES, N_POINTS};
use common::shapes::weight_by_product;
use overlap::calls::insert;

#[derive(Clone)]
struct Insertion;

impl Kind for Insertion {
    const NAME: &'static str = "insert";
    const CALL: ChangeCall = insert;
    const REFUSED_AT: u8 = 15;
    const ACCEPTED_AT: [u8; 5] = [0, 0, 1, 2, 14];

    fn after(lockers: u8) -> u8 {
        lockers + 1
    }
}

type Insert = Change<Insertion>;

/// Network N of document 01, by hand.
mod network_n {
    use super::*;

    fn call(node: u32, places: u32) -> Insert {
        call_on_n(&N_POINTS, node, places)
    }

    /// P10: "row 2 after insert 0, K 2: (2, 0), (0, 7); changed 4".
    #[test]
    fn the_row_and_the_count_of_p10() {
        let mut call = call(0, 2);
        let update = call.run();
        assert_eq!((update.number, update.changed), (0, 4));
        assert_eq!(call.table.words().row(2), [(2, 0), (0, 7)]);
        assert_eq!(call.points, [1, 0, 1, 0, 1, 1]);
    }

    /// From 0 or 1 locker on the node to 15.
    #[test]
    fn every_node_and_every_k() {
        for node in 0..N_NODES {
            for places in 2..=17 {
                let mut points = N_POINTS.to_vec();
                for _ in marks(N_NODES, &N_POINTS)[node as usize]..15 {
                    assert_eq!(compare(call_on_n::<Insertion>(&points, node, places)), 0);
                    points.push(node);
                }
                assert_refused(call_on_n::<Insertion>(&points, node, places), 11);
            }
        }
    }

    #[test]
    fn each_condition_of_its_own() {
        assert_own_conditions(&call(0, 2));
        for node in 0..N_NODES {
            let mut call = call(node, 2);
            call.points[node as usize] = 15;
            assert_refused(call, 11);
        }
    }

    #[test]
    fn scratch_grows_with_places() {
        assert_scratch_of_n(|places| call(0, places));
    }
}

/// "Conditions are tried from 1 upward [...]; the first met is returned".
mod order {
    use super::*;

    #[test]
    fn two_conditions_give_the_lower_number() {
        assert_lower_numbers_first::<Insert>();
    }
}

/// Random networks, valid and damaged, against the plain calculation.
mod random {
    use super::*;

    #[test]
    fn engine_and_plain_calculation_agree() {
        let numbers = [0, 1, 2, 3, 4, 5, 6, 7, 8, 10, 11];
        let tally = assert_random_calls::<Insert>(&numbers, &Insert::TALLIED);
        tally.assert_each_places(LEAST_OF_EACH);
    }
}

/// All networks of up to four nodes with roads of weight 1 or 2, and 0 to 2 lockers on each node.
mod exhaustive {
    use super::*;

    #[test]
    fn up_to_four_nodes() {
        assert_small_networks::<Insertion>(&[2, 3, 17]);
    }
}

/// Insertions one behind the other into one table.
mod one_by_one {
    use super::*;

    /// The rows of up to 15 places are then full of their own node.
    #[test]
    fn until_every_node_has_15_lockers() {
        assert_one_by_one::<Insertion>(1_000, |table| {
            for node in 0..table.nodes() {
                let own = table.row(node).into_iter().take(15);
                assert!(own.eq(vec![(node, 0); table.places.min(15) as usize]));
            }
        });
    }
}

/// Tables that the check would deny.
mod damaged_tables {
    use super::*;

    #[test]
    fn the_marks_change_and_all_else_is_kept() {
        assert_damaged_tables::<Insertion>(10_000);
    }
}

/// Networks at document 01's bounds.
mod limits {
    use super::*;

    #[test]
    fn the_longest_chain() {
        let network = longest_chain();
        let none = vec![0; MOST_NODES as usize];
        let nodes = [0, LAST, 1, LAST / 2];
        assert_changes::<Insertion>(&network, &none, &nodes, 2);
        assert_changes::<Insertion>(&network, &each(1_000), &[LAST, 500], 17);
        let several = several_on_each(1_000);
        assert_changes::<Insertion>(&network, &several, &[LAST, 0, 13_000], 17);
    }

    #[test]
    fn a_star_of_the_most_nodes() {
        let network = largest_star(7);
        let none = vec![0; MOST_NODES as usize];
        assert_changes::<Insertion>(&network, &none, &[LAST, 7, 0, 1], 2);
        assert_changes::<Insertion>(&network, &none, &[7, 7, 7, LAST], 2);
    }

    #[test]
    fn a_grid_of_255_by_257_nodes() {
        let network = largest_grid(weight_by_product);
        assert_changes::<Insertion>(&network, &each(100), &[1, MOST_NODES / 2, LAST], 2);
        assert_changes::<Insertion>(&network, &each(1_000), &[30_001], 17);
        assert_changes::<Insertion>(&network, &several_on_each(1_000), &[30_000, 30_000], 17);
    }
}
