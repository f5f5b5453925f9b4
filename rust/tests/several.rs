//! Several lockers on a node of network N, worked out by hand from document 01 and Asks 6 and 8 of
//! document 02, through every call, and two nodes with every number of lockers.
//!
//! The distances of N, of which node 5 is alone:
//!
//! | | 0 | 1 | 2 | 3 | 4 |
//! |---|---|---|---|---|---|
//! | 0 | 0 | 4 | 7 | 5 | 8 |
//! | 1 | 4 | 0 | 3 | 9 | 10 |
//! | 2 | 7 | 3 | 0 | 10 | 7 |
//! | 3 | 5 | 9 | 10 | 0 | 3 |
//! | 4 | 8 | 10 | 7 | 3 | 0 |

mod common;

use common::all_pairs::AllPairs;
use common::network::{N_NODES, N_ROADS};
use common::searches::assert_site;
use common::table::PlainTable;
use overlap::{Engine, Network, Points, Refusal, Table, NONE};

fn network_n() -> Network {
    Network::from_roads(N_NODES, &N_ROADS).unwrap()
}

/// N with these lockers instead of one each on 2, 4 and 5.
fn n_with(lockers: [u8; 6]) -> (Engine, Points) {
    let network = network_n();
    let points = Points::from_marks(&network, lockers.to_vec()).unwrap();
    (Engine::new(&network), points)
}

fn table_with(lockers: [u8; 6], places: u32) -> Table {
    let (engine, points) = n_with(lockers);
    Table::build(engine.network(), points, places).unwrap()
}

/// The points of N, and a second locker on node 2.
const TWO_ON_2: [u8; 6] = [0, 0, 2, 0, 1, 1];

/// Sees that the table has these rows, of nodes 0 to 5.
fn assert_rows(table: &Table, rows: [&[(u32, u32)]; 6]) {
    for (node, row) in (0..).zip(rows) {
        let is: Vec<_> = table.row(node).unwrap().iter().collect();
        assert_eq!(is, row, "row {node}");
    }
    assert!(table.check());
}

/// "6 allows bytes up to 15; 11 means insert at 15, remove or verify at 0".
mod numbers {
    use super::*;
    use overlap::calls::{self, Found, TableMut};

    /// The numbers of all calls that are lent points but those that 11 can refuse. What the table
    /// holds is no condition.
    fn of_others(points: &[u8]) -> [u32; 13] {
        let network = network_n();
        let (lent, mut s, mut a) = (network.lend(), vec![0; network.scratch_len(2)], [0; 6]);
        let small = network.eager_scratch_len();
        let (mut ids, mut distances) = ([NONE; 12], [NONE; 12]);
        let (s, a) = (&mut s[..], &mut a[..]);
        let found = Found {
            ids: &mut ids,
            distances: &mut distances,
        };
        let nearest = calls::nearest(lent, points, 0, NONE, 2, s, found).number;
        let eager = calls::eager(lent, points, 0, 2, 6, &mut s[..small], a, &mut [0; 6]).number;
        let short_query = calls::short_query(lent, points, 0, &mut s[..small], a).number;
        let lazy = calls::lazy(lent, points, 0, 2, s, a).number;
        let lazy_ep = calls::lazy_ep(lent, points, 0, 2, s, a).number;
        let build = calls::build(lent, points, s, table_mut(&mut ids, &mut distances));
        let table = calls::Table {
            places: 2,
            ids: &ids,
            distances: &distances,
        };
        let table_query = calls::table_query(lent, points, 0, 1, table, s, a).number;
        let table_check = calls::table_check(lent, points, table).number;
        // Ask 1: "6 covers each byte array".
        let good = &[1; 6];
        let households = calls::households(lent, points, good, 0, 2, s, a).number;
        let of_sites = calls::households(lent, good, points, 0, 2, s, a).number;
        let sheet = calls::sheet(lent, points, good, s, a);
        let sheet_of_sites = calls::sheet(lent, good, points, s, a);
        let route = calls::route(lent, points, &[0, 1], 2, s, a).number;
        [
            nearest,
            eager,
            short_query,
            lazy,
            lazy_ep,
            build,
            table_query,
            table_check,
            households,
            of_sites,
            sheet,
            sheet_of_sites,
            route,
        ]
    }

    fn table_mut<'a>(ids: &'a mut [u32], distances: &'a mut [u32]) -> TableMut<'a> {
        TableMut {
            places: 2,
            ids,
            distances,
        }
    }

    /// The numbers of verify, insert and remove on node 3.
    fn on_node_3(points: &[u8]) -> [u32; 3] {
        let network = network_n();
        let (lent, mut scratch) = (network.lend(), vec![0; network.scratch_len(2)]);
        let small = &mut scratch[..network.eager_scratch_len()];
        let verify = calls::verify(lent, points, 3, 0, 2, small).number;
        let change = |call: common::change::ChangeCall| {
            let (mut ids, mut distances) = ([NONE; 12], [NONE; 12]);
            let (table, mut points) = (table_mut(&mut ids, &mut distances), points.to_vec());
            call(lent, &mut points, 3, &mut scratch.clone(), table).number
        };
        [verify, change(calls::insert), change(calls::remove)]
    }

    /// Each byte, on node 3 of N.
    #[test]
    fn of_all_bytes() {
        for byte in 0..=255 {
            let points = [0, 0, 1, byte, 1, 1];
            let (others, verify_insert_remove) = match byte {
                0 => (0, [11, 0, 11]),
                1..=14 => (0, [0, 0, 0]),
                15 => (0, [0, 11, 0]),
                _ => (6, [6; 3]),
            };
            assert_eq!(of_others(&points), [others; 13], "byte {byte}");
            assert_eq!(on_node_3(&points), verify_insert_remove, "byte {byte}");
        }
    }
}

/// "Rows and the nearest call repeat a node for each locker".
mod nearest {
    use super::*;

    fn assert_found(lockers: [u8; 6], (node, e, k): (u32, u32, u32), found: &[(u32, u32)]) {
        let (mut engine, points) = n_with(lockers);
        let nearest = engine.nearest(&points, node, e, k).unwrap();
        assert_eq!(nearest.iter().collect::<Vec<_>>(), found);
    }

    #[test]
    fn a_node_comes_for_each_locker() {
        assert_found(TWO_ON_2, (0, NONE, 3), &[(2, 7), (2, 7), (4, 8)]);
        assert_found(TWO_ON_2, (3, NONE, 16), &[(4, 3), (2, 10), (2, 10)]);
    }

    #[test]
    fn the_cut_can_come_in_the_midst_of_a_node() {
        assert_found(TWO_ON_2, (0, NONE, 1), &[(2, 7)]);
        assert_found(TWO_ON_2, (3, NONE, 2), &[(4, 3), (2, 10)]);
        assert_found([0, 0, 15, 0, 15, 0], (0, NONE, 16), &{
            let mut sixteen = [(2, 7); 16];
            sixteen[15] = (4, 8);
            sixteen
        });
    }

    #[test]
    fn all_lockers_of_a_node_are_below_e_or_none() {
        assert_found(TWO_ON_2, (0, 8, 16), &[(2, 7), (2, 7)]);
        assert_found(TWO_ON_2, (0, 7, 16), &[]);
        assert_found(TWO_ON_2, (2, 0, 16), &[]);
        assert_found(TWO_ON_2, (2, 1, 16), &[(2, 0), (2, 0)]);
    }
}

/// "Each counts, so a locker has its companions on the node as others at distance 0."
mod verify {
    use super::*;

    fn assert_verdicts(lockers: [u8; 6], (p, q): (u32, u32), first_yes: u32) {
        let (mut engine, points) = n_with(lockers);
        for k in 1..=16 {
            let yes = engine.verify(&points, p, q, k);
            assert_eq!(yes, Ok(k >= first_yes), "p {p}, q {q}, k {k}");
        }
    }

    /// The companion is nearer than site 0; point 4 is as far as the site and does not count.
    #[test]
    fn a_companion_is_nearer_than_a_site_on_another_node() {
        assert_verdicts([0, 0, 1, 0, 1, 1], (2, 0), 1);
        assert_verdicts(TWO_ON_2, (2, 0), 2);
        assert_verdicts([0, 0, 15, 0, 1, 1], (2, 0), 15);
    }

    /// Ask 6: "Verify of the point on q says no", of any number there and for every k.
    #[test]
    fn no_locker_on_q_is_listed() {
        assert_verdicts([0, 0, 1, 0, 1, 1], (2, 2), 17);
        assert_verdicts(TWO_ON_2, (2, 2), 17);
        assert_verdicts([0, 0, 15, 0, 15, 1], (2, 2), 17);
    }

    /// Both lockers on 2 are nearer to 4 (7) than site 0 is (8).
    #[test]
    fn all_lockers_of_another_node_count() {
        assert_verdicts(TWO_ON_2, (4, 0), 3);
        assert_verdicts([0, 0, 15, 0, 1, 1], (4, 0), 16);
        assert_verdicts([0, 0, 15, 0, 2, 1], (4, 0), 17);
    }

    #[test]
    fn a_node_without_lockers_is_refused() {
        let (mut engine, points) = n_with(TWO_ON_2);
        for p in [0, 1, 3] {
            assert_eq!(engine.verify(&points, p, 0, 1), Err(Refusal::Mark));
        }
    }
}

/// "A node is listed once, as its lockers fare alike." "[...] the expanded count now count lockers".
mod searches {
    use super::*;

    fn assert_list(lockers: [u8; 6], (q, k): (u32, u32), list: &[u32], visits: &[u32]) {
        let (mut engine, _) = n_with(lockers);
        for places in k + 1..=17 {
            let mut table = table_with(lockers, places);
            assert_site(&mut engine, &mut table, (q, k), list, visits);
        }
    }

    /// P1 with a second locker on 2, which beats the site: 2 is no longer listed.
    #[test]
    fn a_companion_beats_the_site() {
        assert_list([0, 0, 1, 0, 1, 1], (0, 1), &[2], &[0]);
        assert_list(TWO_ON_2, (0, 1), &[], &[0]);
    }

    /// P2 with a second locker on 2: 2 has its companion, 4 has both. Nodes 0 and 3 are expanded, as
    /// 1 and 2 have both lockers of 2 nearer than q, and 4 has them and its own.
    #[test]
    fn lockers_count_one_by_one() {
        assert_list([0, 0, 1, 0, 1, 1], (0, 2), &[2, 4], &[0, 1, 3, 2]);
        assert_list(TWO_ON_2, (0, 2), &[2], &[0, 3]);
        assert_list(TWO_ON_2, (0, 3), &[2, 4], &[0, 1, 3, 2]);
    }

    /// P4 with further lockers on 2, where the site is: none is listed, and none is nearer to 4 than
    /// the site.
    #[test]
    fn no_locker_on_q_is_listed() {
        for on_2 in [2, 15] {
            assert_list([0, 0, on_2, 0, 1, 1], (2, 1), &[4], &[2, 1, 0]);
            assert_list([0, 0, on_2, 0, 1, 1], (2, 2), &[4], &[2, 1, 0, 4, 3]);
        }
    }

    /// P4 with two lockers on 4: each has the other nearer than the site, and those on 2 are no nearer
    /// to it than the site.
    #[test]
    fn companions_on_another_node_count_as_before() {
        for on_2 in [1, 2, 15] {
            assert_list([0, 0, on_2, 0, 2, 1], (2, 1), &[], &[2, 1, 0]);
            assert_list([0, 0, on_2, 0, 2, 1], (2, 2), &[4], &[2, 1, 0]);
            assert_list([0, 0, on_2, 0, 2, 1], (2, 3), &[4], &[2, 1, 0, 4, 3]);
        }
    }

    /// P5 with 15 lockers on the node that is alone.
    #[test]
    fn a_node_alone() {
        for k in [1, 2, 14, 15, 16] {
            assert_list([0, 0, 0, 0, 0, 15], (5, k), &[], &[5]);
        }
    }
}

/// "a row is still cut after K places". "Insert adds one, remove takes one".
mod table {
    use super::*;

    #[test]
    fn rows_of_two_and_three_places() {
        assert_rows(
            &table_with(TWO_ON_2, 2),
            [
                &[(2, 7), (2, 7)],
                &[(2, 3), (2, 3)],
                &[(2, 0), (2, 0)],
                &[(4, 3), (2, 10)],
                &[(4, 0), (2, 7)],
                &[(5, 0)],
            ],
        );
        assert_rows(
            &table_with(TWO_ON_2, 3),
            [
                &[(2, 7), (2, 7), (4, 8)],
                &[(2, 3), (2, 3), (4, 10)],
                &[(2, 0), (2, 0), (4, 7)],
                &[(4, 3), (2, 10), (2, 10)],
                &[(4, 0), (2, 7), (2, 7)],
                &[(5, 0)],
            ],
        );
    }

    /// Rows 0, 1 and 2 gain the second locker; rows 3 and 4 show one and are full.
    #[test]
    fn a_second_locker_changes_three_rows() {
        let mut table = table_with([0, 0, 1, 0, 1, 1], 2);
        assert_eq!(table.insert(2), Ok(3));
        assert_eq!(table.lend().ids, table_with(TWO_ON_2, 2).lend().ids);
        assert_eq!(table.remove(2), Ok(3));
        assert!(table.row(0).unwrap().iter().eq([(2, 7), (4, 8)]));
    }

    /// With K = 2 no row has room for a third locker on 2; rows of three places have it in 0, 1 and
    /// 2, whose last entry was 4, and are cut before it in 3 and 4.
    #[test]
    fn a_third_locker_finds_no_room() {
        let mut table = table_with(TWO_ON_2, 2);
        assert_eq!(table.insert(2), Ok(0));
        assert_eq!(table.points().count(2), 3);
        assert_eq!(table.remove(2), Ok(0));
        let mut table = table_with(TWO_ON_2, 3);
        assert_eq!(table.insert(2), Ok(3));
        assert!(table.row(0).unwrap().iter().eq([(2, 7); 3]));
        assert!(table.row(3).unwrap().iter().eq([(4, 3), (2, 10), (2, 10)]));
        assert_eq!(table.remove(2), Ok(3));
    }

    /// 15 lockers fill 15 of 17 places, and the 16th is refused.
    #[test]
    fn fifteen_lockers_and_no_more() {
        let mut table = table_with([0; 6], 17);
        for lockers in 1..=15 {
            assert_eq!(table.insert(5), Ok(1));
            assert!(table.row(5).unwrap().iter().eq(vec![(5, 0); lockers]));
        }
        assert_eq!(table.insert(5), Err(Refusal::Mark));
        assert_eq!(table.lend().ids[5 * 17 + 15..], [NONE, NONE]);
        for _ in 0..15 {
            assert_eq!(table.remove(5), Ok(1));
        }
        assert_eq!(table.remove(5), Err(Refusal::Mark));
    }

    /// The table of N with K = 2 says that 2 has one locker. That of two on 2 is also that of three.
    #[test]
    fn the_check_counts_lockers_as_far_as_rows_show_them() {
        let is_table = |lockers, of: [u8; 6]| {
            let (table, (engine, points)) = (table_with(of, 2), n_with(lockers));
            let (ids, distances) = (table.lend().ids.to_vec(), table.lend().distances.to_vec());
            Table::from_arrays(engine.network(), points, 2, ids, distances)
                .unwrap()
                .is_some()
        };
        let [one, two, three] = [1, 2, 3].map(|lockers| [0, 0, lockers, 0, 1, 1]);
        assert!(is_table(one, one) && is_table(two, two));
        assert!(!is_table(one, two) && !is_table(two, one));
        assert!(is_table(two, three) && is_table(three, two));
    }
}

/// Two nodes with every number of lockers, every k and every K, against the plain calculation.
mod two_nodes {
    use super::*;

    fn try_all(mut try_points: impl FnMut(&Network, &AllPairs, [u8; 2])) {
        for roads in [&[][..], &[(0, 1, 1)], &[(0, 1, 65_535)]] {
            let network = Network::from_roads(2, roads).unwrap();
            let pairs = AllPairs::of(network.lend());
            for lockers in 0..=255 {
                try_points(&network, &pairs, [lockers / 16, lockers % 16]);
            }
        }
    }

    #[test]
    fn calls_without_a_table() {
        try_all(|network, pairs, marks| {
            let points = Points::from_marks(network, marks.to_vec()).unwrap();
            let mut engine = Engine::new(network);
            for (q, k) in (0..2).flat_map(|q| (1..=16).map(move |k| (q, k))) {
                let list = pairs.plain_listed(&marks, q, k);
                let visits = pairs.plain_visits(&marks, q, k);
                let expanded = visits.len() as u32;
                let listed = engine.eager(&points, q, k, expanded).unwrap();
                assert_eq!((listed.points, listed.visits), (&list[..], &visits[..]));
                assert_eq!(engine.lazy(&points, q, k), Ok(&list[..]));
                assert_eq!(engine.lazy_ep(&points, q, k), Ok(&list[..]));
                assert_eq!(engine.route(&points, &[q], k), Ok(&list[..]));
                for p in points.iter() {
                    let yes = list.contains(&p);
                    assert_eq!(engine.verify(&points, p, q, k), Ok(yes));
                }
                let near = pairs.plain_nearest(&marks, q, NONE, k);
                let nearest = engine.nearest(&points, q, NONE, k).unwrap();
                assert!(nearest.iter().eq(near), "{marks:?}");
            }
        });
    }

    /// Sees that the table is the one of these lockers, and so are its lists.
    fn assert_table(table: &mut Table, pairs: &AllPairs, marks: [u8; 2]) {
        let plain = PlainTable::of(pairs, &marks, table.places());
        assert_eq!(table.points().marks(), marks);
        assert_eq!(
            (table.lend().ids, table.lend().distances),
            (&plain.ids[..], &plain.distances[..])
        );
        assert!(table.check());
        let places = table.places();
        for (q, k) in (0..2).flat_map(|q| (1..places).map(move |k| (q, k))) {
            let list = pairs.plain_listed(&marks, q, k);
            assert_eq!(table.query(q, k), Ok(&list[..]), "{marks:?}");
        }
    }

    #[test]
    fn calls_with_a_table() {
        try_all(|network, pairs, marks| {
            for places in 2..=17 {
                let points = Points::from_marks(network, marks.to_vec()).unwrap();
                let mut table = Table::build(network, points, places).unwrap();
                assert_table(&mut table, pairs, marks);
                for node in 0..2 {
                    let mut more = marks;
                    more[node] += 1;
                    let before = PlainTable::of(pairs, &marks, places);
                    let changed = Ok(before.changed(&PlainTable::of(pairs, &more, places)));
                    if marks[node] == 15 {
                        assert_eq!(table.insert(node as u32), Err(Refusal::Mark));
                        continue;
                    }
                    assert_eq!(table.insert(node as u32), changed, "{marks:?}");
                    assert_table(&mut table, pairs, more);
                    assert_eq!(table.remove(node as u32), changed, "{marks:?}");
                }
                assert_table(&mut table, pairs, marks);
            }
        });
    }
}
