//! The plain calculation that the other tests compare with, tried on what document 01 says of
//! network N, and on itself. The wrapper's own helpers are tried here as well.

mod common;

use common::all_pairs::AllPairs;
use common::inputs::{some_k, some_node, some_places, some_points};
use common::nearest_rows::NearestRows;
use common::network::{marks, network_n, OwnedNetwork, N_NODES, N_POINTS};
use common::numbers::plain_scratch_len;
use common::random::Random;
use common::route::some_route;
use common::rows::{relaxed_row, relaxed_row_of, row_of};
use common::shapes::random_network;
use common::table::PlainTable;
use overlap::calls::{accepted, eager_scratch_len, meaning, scratch_len};
use overlap::calls::{Listing, Network, RowPart, Update, Verdict, NONE};

/// The cases of document 01.
mod cases {
    use super::*;

    /// A case: q, k, the list, the expanded count and the visits.
    type Case = (u32, u32, &'static [u32], u32, &'static [u32]);

    /// Ask 6: "In P4 the list becomes 4, in P5 it becomes empty. Expanded counts are untouched."
    const P1_TO_P5: [Case; 5] = [
        (0, 1, &[2], 1, &[0]),
        (0, 2, &[2, 4], 4, &[0, 1, 3, 2]),
        (1, 1, &[2], 2, &[1, 0]),
        (2, 1, &[4], 3, &[2, 1, 0]),
        (5, 1, &[], 1, &[5]),
    ];

    fn pairs_of_n() -> AllPairs {
        AllPairs::of(network_n().lend())
    }

    #[test]
    fn p1_to_p5() {
        let (pairs, points) = (pairs_of_n(), marks(N_NODES, &N_POINTS));
        for (q, k, listed, expanded, visits) in P1_TO_P5 {
            assert_eq!(pairs.plain_listed(&points, q, k), listed);
            assert_eq!(pairs.plain_expanded(&points, q, k), expanded);
            assert_eq!(pairs.plain_visits(&points, q, k), visits);
        }
    }

    #[test]
    fn p6_without_points() {
        let (pairs, points) = (pairs_of_n(), marks(N_NODES, &[]));
        assert!(pairs.plain_listed(&points, 0, 1).is_empty());
        assert_eq!(pairs.plain_expanded(&points, 0, 1), 5);
        assert_eq!(pairs.plain_visits(&points, 0, 1), [0, 1, 3, 2, 4]);
        // Nodes 0 and 4 are both 7 from node 2.
        assert_eq!(pairs.plain_visits(&points, 2, 1), [2, 1, 0, 4, 3]);
    }

    #[test]
    fn p7_with_the_road_2_4_of_6() {
        let roads = [(0, 1, 4), (0, 3, 5), (1, 2, 3), (2, 4, 6), (3, 4, 3)];
        let network = OwnedNetwork::from_roads(N_NODES, &roads);
        let pairs = AllPairs::of(network.lend());
        let points = marks(N_NODES, &N_POINTS);
        assert!(pairs.plain_listed(&points, 0, 1).is_empty());
    }

    /// A row is what nearest finds with e = NONE, and then empty places.
    #[test]
    fn p8_to_p10_by_nearest() {
        let (pairs, points) = (pairs_of_n(), marks(N_NODES, &N_POINTS));
        assert_eq!(pairs.plain_nearest(&points, 0, NONE, 2), [(2, 7), (4, 8)]);
        assert_eq!(pairs.plain_nearest(&points, 5, NONE, 2), [(5, 0)]);
        let inserted = marks(N_NODES, &[0, 2, 4, 5]);
        assert_eq!(pairs.plain_nearest(&inserted, 2, NONE, 2), [(2, 0), (0, 7)]);
        let row = |points, node| pairs.plain_nearest(points, node, NONE, 2);
        let changed = (0..N_NODES).filter(|&node| row(&points, node) != row(&inserted, node));
        assert_eq!(changed.count(), 4);
    }

    #[test]
    fn p8_to_p10_by_the_table() {
        let (pairs, points) = (pairs_of_n(), marks(N_NODES, &N_POINTS));
        let table = PlainTable::of(&pairs, &points, 2);
        assert_eq!(table.row(0), [(2, 7), (4, 8)]);
        assert_eq!(table.row(5), [(5, 0), (NONE, NONE)]);
        let inserted = PlainTable::of(&pairs, &marks(N_NODES, &[0, 2, 4, 5]), 2);
        assert_eq!(inserted.row(2), [(2, 0), (0, 7)]);
        assert_eq!(table.changed(&inserted), 4);
    }
}

/// Several lockers on a node, one locker after another: "Each counts, so a locker has its companions
/// on the node as others at distance 0."
mod lockers {
    use super::*;

    /// The nodes of all lockers, ascending.
    fn all(points: &[u8]) -> Vec<u32> {
        let of_node = |(node, &lockers): (u32, &u8)| std::iter::repeat_n(node, lockers.into());
        (0..).zip(points).flat_map(of_node).collect()
    }

    /// The nodes of the lockers that are listed, and those of all that are not. Ask 6: "a point on q
    /// isn't listed".
    fn listed(pairs: &AllPairs, lockers: &[u32], q: u32, k: u32) -> [Vec<u32>; 2] {
        let mut lists = [vec![], vec![]];
        for (at, &p) in lockers.iter().enumerate() {
            let row = pairs.row(p);
            let is_nearer =
                |&p: &u32| row[p as usize].is_some() && row[p as usize] < row[q as usize];
            let others = [&lockers[..at], &lockers[at + 1..]].concat();
            let nearer = others.iter().filter(|p| is_nearer(p)).count();
            let yes = p != q && row[q as usize].is_some() && nearer < k as usize;
            lists[usize::from(!yes)].push(p);
        }
        lists
    }

    /// Shows all pairs of random networks, points of each, a node and a k.
    fn try_random(mut see: impl FnMut(&AllPairs, &[u8], u32, u32)) {
        for seed in 0..4_000 {
            let mut random = Random::new(seed);
            let network = random_network(&mut random);
            let points = some_points(&network, &mut random);
            let (node, k) = (some_node(&network, &mut random), some_k(&mut random));
            see(&AllPairs::of(network.lend()), &points, node, k);
        }
    }

    /// "A node is listed once, as its lockers fare alike."
    #[test]
    fn fare_alike_and_give_the_lists() {
        let (mut several, mut on_q) = (0, 0);
        try_random(|pairs, points, q, k| {
            let [mut yes, no] = listed(pairs, &all(points), q, k);
            assert!(yes.iter().all(|p| !no.contains(p)));
            let lockers = yes.len();
            yes.dedup();
            assert_eq!(pairs.plain_listed(points, q, k), yes);
            several += usize::from(lockers > yes.len());
            on_q += usize::from(points[q as usize] > 1);
        });
        assert!(several >= 300 && on_q >= 300, "{several}, {on_q}");
    }

    /// "[...] the expanded count now count lockers". Ask 4: "the nodes that its count counts, by
    /// distance from the site and then by node".
    #[test]
    fn give_the_counts_and_visits() {
        try_random(|pairs, points, q, k| {
            let is_counted = |&m: &u32| {
                let far = pairs.plain_distances(m);
                let to_q = far[q as usize];
                let lockers = all(points).into_iter();
                let nearer = lockers.filter(|&p| far[p as usize] < to_q).count();
                to_q != NONE && nearer < k as usize
            };
            let counted: Vec<u32> = (0..points.len() as u32).filter(is_counted).collect();
            assert_eq!(pairs.plain_expanded(points, q, k), counted.len() as u32);
            let (far, mut visits) = (pairs.plain_distances(q), pairs.plain_visits(points, q, k));
            let place = |m: u32| (far[m as usize], m);
            assert!(visits.windows(2).all(|two| place(two[0]) < place(two[1])));
            visits.sort_unstable();
            assert_eq!(visits, counted);
        });
    }

    /// "Rows and the nearest call repeat a node for each locker".
    #[test]
    fn give_the_rows() {
        try_random(|pairs, points, node, k| {
            let far = pairs.plain_distances(node);
            let mut near: Vec<_> = all(points).iter().map(|&p| (far[p as usize], p)).collect();
            near.sort_unstable();
            near.retain(|entry| entry.0 != NONE);
            near.truncate(k as usize);
            let found = pairs.plain_nearest(points, node, NONE, k).into_iter();
            assert!(found.map(|(p, far)| (far, p)).eq(near), "{points:?}");
        });
    }
}

/// Ask 1, one household and one site after another.
mod households {
    use super::*;

    /// The nodes of all households, or of all sites, ascending.
    fn all(bytes: &[u8]) -> Vec<u32> {
        let of_node = |(node, &byte): (u32, &u8)| std::iter::repeat_n(node, byte.into());
        (0..).zip(bytes).flat_map(of_node).collect()
    }

    /// The nodes of the households that are listed: "it can be reached and fewer than k sites are
    /// strictly nearer to it than q".
    fn listed(pairs: &AllPairs, bytes: [&[u8]; 2], q: u32, k: u32) -> Vec<u32> {
        let [households, sites] = bytes.map(all);
        let is_listed = |&h: &u32| {
            let far = pairs.plain_distances(h);
            let to_q = far[q as usize];
            let nearer = sites.iter().filter(|&&t| far[t as usize] < to_q).count();
            to_q != NONE && nearer < k as usize
        };
        households.into_iter().filter(is_listed).collect()
    }

    #[test]
    fn give_the_lists_and_the_sheet() {
        let (mut several, mut shared) = (0, 0);
        for seed in 0..4_000 {
            let mut random = Random::new(seed);
            let network = random_network(&mut random);
            let pairs = AllPairs::of(network.lend());
            let bytes = [(); 2].map(|()| some_points(&network, &mut random));
            let [households, sites] = [&bytes[0][..], &bytes[1]];
            let (q, k) = (some_node(&network, &mut random), some_k(&mut random));
            let mut list = listed(&pairs, [households, sites], q, k);
            let length = list.len();
            list.dedup();
            several += usize::from(length > list.len());
            assert_eq!(pairs.plain_households(households, sites, q, k), list);
            let entry = |q: u32| match sites[q as usize] {
                0 => 0,
                _ => listed(&pairs, [households, sites], q, 1).len() as u32,
            };
            let sheet: Vec<u32> = (0..sites.len() as u32).map(entry).collect();
            assert_eq!(pairs.plain_sheet(households, sites), sheet);
            shared += usize::from(sheet.iter().sum::<u32>() as usize > all(households).len());
        }
        assert!(several >= 300 && shared >= 100, "{several}, {shared}");
    }

    /// Network N with its points as sites, by hand.
    #[test]
    fn of_network_n() {
        let (pairs, sites) = (AllPairs::of(network_n().lend()), marks(N_NODES, &N_POINTS));
        let households = [1, 2, 0, 1, 0, 3];
        let list = |q, k| pairs.plain_households(&households, &sites, q, k);
        assert_eq!([list(0, 1), list(2, 1)], [vec![0], vec![0, 1]]);
        assert_eq!([list(0, 2), list(5, 1)], [vec![0, 1, 3], vec![5]]);
        assert_eq!(pairs.plain_sheet(&households, &sites), [0, 0, 3, 0, 1, 3]);
    }
}

/// Ask 7, one locker and one node of the route after another.
mod routes {
    use super::*;

    /// Whether a locker on p is listed for some node of the route, and stands on none.
    fn is_touched(pairs: &AllPairs, points: &[u8], route: &[u32], p: u32, k: u32) -> bool {
        let far = pairs.plain_distances(p);
        let others = |q: u32| {
            let is_nearer = |&t: &usize| far[t] < far[q as usize];
            let nearer = (0..points.len()).filter(is_nearer);
            nearer.map(|t| usize::from(points[t])).sum::<usize>() - 1
        };
        let reaches = |q: u32| far[q as usize] != NONE && others(q) < k as usize;
        !route.contains(&p) && route.iter().any(|&q| reaches(q))
    }

    #[test]
    fn give_the_lists() {
        let (mut longer, mut on_route) = (0, 0);
        for seed in 0..4_000 {
            let mut random = Random::new(seed);
            let network = random_network(&mut random);
            let pairs = AllPairs::of(network.lend());
            let points = some_points(&network, &mut random);
            let (route, k) = (some_route(&network, &mut random), some_k(&mut random));
            let marked = (0..points.len() as u32).filter(|&p| points[p as usize] > 0);
            let list: Vec<u32> = marked
                .filter(|&p| is_touched(&pairs, &points, &route, p, k))
                .collect();
            assert_eq!(pairs.plain_touched(&points, &route, k), list);
            let of_first = pairs.plain_listed(&points, route[0], k);
            longer += usize::from(list.len() > of_first.len());
            on_route += usize::from(of_first.iter().any(|p| route.contains(p)));
        }
        assert!(longer >= 200 && on_route >= 800, "{longer}, {on_route}");
    }

    /// Network N, by hand: for k = 1 node 3 receives 4, nodes 0, 1 and 4 receive 2, node 2 receives 4.
    #[test]
    fn of_network_n() {
        let (pairs, points) = (AllPairs::of(network_n().lend()), marks(N_NODES, &N_POINTS));
        let list = |route: &[u32], k| pairs.plain_touched(&points, route, k);
        assert_eq!(list(&[3, 0, 1], 1), [2, 4]);
        assert_eq!([list(&[0], 1), list(&[0], 2)], [vec![2], vec![2, 4]]);
        assert_eq!(
            [list(&[0, 1, 2], 1), list(&[1, 2, 4], 1)],
            [vec![4], vec![]]
        );
        assert_eq!(
            [list(&[1, 0, 3, 0], 1), list(&[5], 16)],
            [vec![2, 4], vec![]]
        );
    }
}

/// The distances of one node.
mod rows {
    use super::*;

    #[test]
    fn by_relaxation_are_those_by_all_pairs() {
        for seed in 0..2_000 {
            let network = random_network(&mut Random::new(seed));
            let pairs = AllPairs::of(network.lend());
            for node in 0..network.starts.len() as u32 - 1 {
                let row = relaxed_row(network.lend(), node);
                assert_eq!(row, *pairs.row(node), "{network:?}");
                assert_eq!(row, row_of(&pairs.plain_distances(node)));
            }
        }
    }

    /// The nearest of several nodes.
    #[test]
    fn of_several_nodes_are_the_least_of_their_rows() {
        for seed in 0..2_000 {
            let mut random = Random::new(seed);
            let network = random_network(&mut random);
            let pairs = AllPairs::of(network.lend());
            let nodes = some_route(&network, &mut random);
            let row = relaxed_row_of(network.lend(), &nodes);
            for (to, &entry) in row.iter().enumerate() {
                let least = nodes.iter().filter_map(|&node| pairs.row(node)[to]).min();
                assert_eq!(entry, least, "{network:?}");
            }
        }
    }
}

/// The nearest points of each node.
mod nearest_rows {
    use super::*;

    #[test]
    fn by_relaxation_are_those_by_all_pairs() {
        for seed in 0..2_000 {
            let mut random = Random::new(seed);
            let network = random_network(&mut random);
            let pairs = AllPairs::of(network.lend());
            let (points, k) = (some_points(&network, &mut random), some_k(&mut random));
            let nearest = NearestRows::of(network.lend(), &points, k as usize + 1);
            for node in 0..points.len() as u32 {
                let row = nearest.row(node).into_iter();
                let row: Vec<_> = row.map(|(far, p)| (p, far as u32)).collect();
                assert_eq!(row, pairs.plain_nearest(&points, node, NONE, k + 1));
            }
            let q = some_node(&network, &mut random);
            let list = nearest.listed(pairs.row(q), k);
            assert_eq!(list, pairs.plain_listed(&points, q, k), "{network:?}");
            let visits = nearest.visits(pairs.row(q), k);
            assert_eq!(visits, pairs.plain_visits(&points, q, k), "{network:?}");
            let households = some_points(&network, &mut random);
            let list = nearest.households(pairs.row(q), &households, k);
            assert_eq!(list, pairs.plain_households(&households, &points, q, k));
            let route = some_route(&network, &mut random);
            let list = pairs.plain_touched(&points, &route, k);
            assert_eq!(nearest.touched(network.lend(), &route, k), list);
            assert_eq!(nearest.touched_together(network.lend(), &route, k), list);
        }
    }
}

/// The table.
mod tables {
    use super::*;

    #[test]
    fn by_relaxation_are_those_by_all_pairs() {
        for seed in 0..2_000 {
            let mut random = Random::new(seed);
            let network = random_network(&mut random);
            let pairs = AllPairs::of(network.lend());
            let (points, places) = (some_points(&network, &mut random), some_places(&mut random));
            let table = PlainTable::of(&pairs, &points, places);
            assert_eq!(table, PlainTable::of_large(&network, &points, places));
        }
    }
}

/// The lengths of scratch.
mod scratch {
    use super::*;

    #[test]
    fn is_s_of_document_01() {
        let mut random = Random::new(1);
        for _ in 0..2_000 {
            let network = random_network(&mut random);
            for m in 1..=17 {
                let length = plain_scratch_len(network.lend(), m);
                assert_eq!(scratch_len(network.lend(), m as usize), length);
            }
        }
        assert_eq!(scratch_len(network_n().lend(), 1), 224);
        assert_eq!(scratch_len(network_n().lend(), 16), 2_144);
    }

    #[test]
    fn has_an_answer_for_any_arrays_and_any_m() {
        let empty = Network {
            starts: &[],
            neighbours: &[],
            weights: &[],
        };
        for m in [0, 1, usize::MAX] {
            assert_eq!(scratch_len(empty, m), 0);
        }
        let network = network_n();
        assert_eq!(scratch_len(network.lend(), 0), 96);
        let fits = usize::MAX / 128;
        assert_eq!(scratch_len(network.lend(), fits), 96 + 128 * fits);
        for m in [fits + 1, usize::MAX] {
            assert_eq!(scratch_len(network.lend(), m), usize::MAX);
        }
        let alone = OwnedNetwork::from_roads(6, &[]);
        assert_eq!(scratch_len(alone.lend(), usize::MAX / 48), usize::MAX);
    }

    /// Ask 5: "Eager, verify and the short query shall work with 12 × n entries for every k." All
    /// other tests take the length from this one definition.
    #[test]
    fn of_eager_is_12_n_of_document_02() {
        for (n, length) in [(0, 0), (1, 12), (6, 72), (725, 8_700), (65_535, 786_420)] {
            let network = OwnedNetwork::from_roads(n, &[]);
            assert_eq!(network.starts.len(), n as usize + 1);
            assert_eq!(eager_scratch_len(network.lend()), length);
        }
        let empty = OwnedNetwork::default();
        assert_eq!(eager_scratch_len(empty.lend()), 0);
        // Arcs don't count, and any arrays have an answer.
        assert_eq!(eager_scratch_len(network_n().lend()), 72);
        let arcs_alone = OwnedNetwork::from_arrays(&[], &[1, 0], &[4, 4]);
        assert_eq!(eager_scratch_len(arcs_alone.lend()), 0);
    }
}

/// The answers as a `Result`.
mod answers {
    use super::*;

    #[test]
    fn number_0_is_accepted() {
        assert_eq!(accepted(0), Ok(()));
        let listing = Listing {
            number: 0,
            count: 3,
            length: 2,
        };
        assert_eq!(listing.accepted(), Ok(listing));
        for (yes, answer) in [(0, false), (1, true)] {
            assert_eq!(Verdict { number: 0, yes }.accepted(), Ok(answer));
        }
        for changed in [0, 4] {
            assert_eq!(Update { number: 0, changed }.accepted(), Ok(changed));
        }
        for rival in [0, 1] {
            let part = RowPart {
                number: 0,
                rival,
                start: 4,
                length: 2,
            };
            assert_eq!(part.accepted(), Ok(part));
        }
    }

    #[test]
    fn another_number_is_a_refusal() {
        for number in (1..=12).chain([14]) {
            let refusal = accepted(number).unwrap_err();
            assert_eq!(refusal.number(), number);
            assert!(refusal.to_string().contains(meaning(number)));
            let listing = Listing {
                number,
                ..Listing::default()
            };
            assert_eq!(listing.accepted(), Err(refusal));
            assert_eq!(Verdict { number, yes: 0 }.accepted(), Err(refusal));
            assert_eq!(Update { number, changed: 0 }.accepted(), Err(refusal));
            let part = RowPart {
                number,
                ..RowPart::default()
            };
            assert_eq!(part.accepted(), Err(refusal));
        }
    }

    /// No call returns such a number.
    #[test]
    fn another_number_is_none_of_a_call() {
        for number in [13, 15, u32::MAX] {
            assert!(std::panic::catch_unwind(|| accepted(number)).is_err());
            assert_eq!(meaning(number), "no call returns this number");
        }
    }
}
