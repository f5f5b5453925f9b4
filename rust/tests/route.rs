//! Routes, compared with Ask 7 of document 02.

mod common;

use common::all_pairs::AllPairs;
use common::call::{assert_lower_numbers_first, assert_outcome, assert_random_calls};
use common::call::{assert_refused, assert_scratch_lengths, compare, Call, LEAST_OF_EACH};
use common::inputs::{some_k, some_node, some_points};
use common::largest::{densest, each, largest_grid, largest_star, longest_chain};
use common::largest::{most_roads, several_on_each, DENSEST_NODES, LAST, MOST_NODES};
use common::lent::Lent;
use common::nearest_rows::NearestRows;
use common::network::{marks, network_n, OwnedNetwork, N_NODES, N_POINTS};
use common::random::Random;
use common::route::{some_route, Route};
use common::shapes::{
    all_small_networks, chain, complete, grid, random_network, random_network_of,
};
use common::shapes::{ring, star, try_all_small_points, weight_by_product, weighted};
use common::site::{Site, EAGER};
use common::tally::Tally;
use common::walks::{neighbours_of, random_walk, to_and_fro, walk_through_all};
use std::collections::{BTreeMap, BTreeSet};
use std::time::{Duration, Instant};

/// Sees that this is the list.
fn assert_list(call: Route, list: &[u32]) {
    let outcome = call.accepted(list);
    assert_outcome(call, &outcome);
}

/// Network N of document 01, by hand. Its points are 2, 4 and 5.
mod network_n {
    use super::*;

    fn call(route: &[u32], k: u32) -> Route {
        call_with(&marks(N_NODES, &N_POINTS), route, k)
    }

    fn call_with(points: &[u8], route: &[u32], k: u32) -> Route {
        let seed = route.len() as u64 + u64::from(k);
        Route::exact(&network_n(), points, (route, k), &mut Random::new(seed))
    }

    /// P1 to P5, and the other sites. "[...] and agree with eager on a route of one node."
    #[test]
    fn the_lists_of_single_nodes() {
        let of_1: [&[u32]; 6] = [&[2], &[2], &[4], &[4], &[2], &[]];
        let of_2: [&[u32]; 6] = [&[2, 4], &[2, 4], &[4], &[2, 4], &[2], &[]];
        for (q, lists) in (0..).zip(of_1.into_iter().zip(of_2)) {
            assert_list(call(&[q], 1), lists.0);
            assert_list(call(&[q], 2), lists.1);
            assert_list(call(&[q], 16), lists.1);
        }
    }

    /// For k = 1 nodes 0, 1 and 4 receive 2, nodes 2 and 3 receive 4.
    #[test]
    fn the_union_of_what_the_nodes_receive() {
        assert_list(call(&[0, 1], 1), &[2]);
        assert_list(call(&[3, 0], 1), &[2, 4]);
        assert_list(call(&[3, 0, 1], 1), &[2, 4]);
        assert_list(call(&[1, 0, 3], 1), &[2, 4]);
        assert_list(call(&[1, 0, 3], 2), &[2, 4]);
    }

    /// "without the points that stand on the route itself".
    #[test]
    fn points_on_the_route_are_not_listed() {
        for k in [1, 2, 16] {
            assert_list(call(&[1, 2], k), &[4]);
            assert_list(call(&[0, 1, 2], k), &[4]);
            assert_list(call(&[3, 4], k), &[2]);
            assert_list(call(&[2, 4], k), &[]);
            assert_list(call(&[4, 2, 1, 0, 3], k), &[]);
        }
    }

    #[test]
    fn a_node_may_come_again() {
        assert_list(call(&[0, 1, 0], 1), &[2]);
        assert_list(call(&[0, 3, 0, 1, 0, 3], 1), &[2, 4]);
        // Once round, twice round, and 100 times to and fro.
        assert_list(call(&[0, 1, 2, 4, 3, 0], 1), &[]);
        assert_list(call(&[2, 4, 3, 0, 1, 2, 4, 3, 0, 1, 2], 1), &[]);
        assert_list(call(&[0, 1].repeat(100), 1), &[2]);
        assert_list(call(&[3, 0].repeat(100), 1), &[2, 4]);
        assert_list(call(&[1, 2].repeat(100), 1), &[4]);
    }

    /// Nodes 0 and 4 are both 7 from 2: point 4 is no nearer to it than the route over 0, nor 0 than
    /// that over 4.
    #[test]
    fn equal_distances_are_not_nearer() {
        assert_list(call(&[0], 1), &[2]);
        assert_list(call(&[3, 0, 3], 1), &[2, 4]);
        let points = marks(N_NODES, &[0, 2]);
        assert_list(call_with(&points, &[4], 1), &[2]);
        assert_list(call_with(&points, &[3, 4], 1), &[0, 2]);
    }

    /// The nearest stop decides: 4 has point 2 nearer (7) than 0 and 1 are, but not than 3 is.
    #[test]
    fn a_far_stop_takes_nothing_away() {
        assert_list(call(&[1, 0], 1), &[2]);
        assert_list(call(&[1, 0, 3], 1), &[2, 4]);
        assert_list(call(&[3, 0, 1], 1), &[2, 4]);
        assert_list(call(&[0, 3, 0, 1], 1), &[2, 4]);
    }

    /// "Each counts, so a locker has its companions on the node as others at distance 0."
    #[test]
    fn companions_count_each() {
        for lockers in 1..=15 {
            let points = [0, 0, lockers, 0, 1, 1];
            for k in 1..=16 {
                let list: &[u32] = match u32::from(lockers) <= k {
                    true => &[2, 4],
                    false => &[4],
                };
                assert_list(call_with(&points, &[1, 0, 3], k), list);
                // On the route they are companions of none that is listed.
                assert_list(call_with(&points, &[3, 0, 1, 2], k), &[4]);
            }
        }
    }

    #[test]
    fn without_points_the_list_is_empty() {
        for route in [&[0][..], &[0, 1], &[3, 0, 1, 2, 4], &[5]] {
            for k in [1, 16] {
                assert_list(call_with(&[0; 6], route, k), &[]);
            }
        }
    }

    /// Node 1 has point 2 nearer (3) than a stop on 0 (4), node 3 has point 4 nearer (3) than that (5).
    #[test]
    fn a_point_on_every_node() {
        for (route, of_1, of_2) in [
            (&[0][..], &[][..], &[1, 2, 3][..]),
            (&[0, 1], &[2], &[2, 3]),
            (&[3, 0, 1], &[2, 4], &[2, 4]),
            (&[5], &[], &[]),
        ] {
            assert_list(call_with(&[1; 6], route, 1), of_1);
            assert_list(call_with(&[1; 6], route, 2), of_2);
        }
    }

    #[test]
    fn each_condition_of_its_own() {
        let assert_number = |number, change: fn(&mut Route)| {
            let mut call = call(&[3, 0, 1], 2);
            change(&mut call);
            assert_refused(call, number);
        };
        assert_number(6, |c| c.points[3] = 16);
        assert_number(6, |c| c.points[5] = 255);
        assert_number(6, |c| c.points.truncate(5));
        assert_number(6, |c| c.points.push(0));
        assert_number(6, |c| c.points.clear());
        assert_number(9, |c| c.k = 0);
        assert_number(9, |c| c.k = 17);
        assert_number(9, |c| c.k = u32::MAX);
        assert_number(10, |c| c.answers = Lent::junk(5, &mut Random::new(0)));
        assert_number(10, |c| c.answers = Lent::junk(0, &mut Random::new(0)));
        assert_number(10, |c| c.scratch = Lent::junk(351, &mut Random::new(0)));
        assert_number(10, |c| c.scratch = Lent::junk(0, &mut Random::new(0)));
    }

    /// "7 for each node of the list": the first, the last, one between, and with others.
    #[test]
    fn a_node_that_is_none_of_n() {
        for none in [6, 7, 65_535, 65_536, 65_537, u32::MAX - 1, u32::MAX] {
            assert_refused(call(&[none], 1), 7);
            assert_refused(call(&[none, 0, 1], 1), 7);
            assert_refused(call(&[0, none, 1], 1), 7);
            assert_refused(call(&[3, 0, 1, none], 1), 7);
            assert_refused(call(&[none, none], 1), 7);
            assert_refused(call(&[0, 0, 2, none], 1), 7);
        }
        // As a node 65,536 larger would be read as this one in 16 bits.
        assert_refused(call(&[3, 0, 65_537], 1), 7);
    }

    /// "14, after 12, if the list is empty or two nodes in sequence have no road."
    #[test]
    fn a_list_that_is_no_route() {
        let no_routes: [&[u32]; 14] = [
            &[],
            // No road, though a walk joins them.
            &[0, 2],
            &[1, 3],
            &[0, 4],
            // No walk.
            &[0, 5],
            &[5, 0],
            // A node has no road to itself.
            &[0, 0],
            &[5, 5],
            &[2, 2, 4],
            // In the beginning, at the end, and between.
            &[2, 0, 1],
            &[0, 1, 2, 3],
            &[0, 1, 3, 4],
            &[0, 1, 2, 2, 4, 3],
            &[0, 1, 0, 3, 4, 3, 1],
        ];
        for no_route in no_routes {
            for k in [1, 2, 16] {
                assert_refused(call(no_route, k), 14);
            }
        }
    }

    /// Each of the numbers that a wrong list meets, beside what comes before it.
    #[test]
    fn a_wrong_list_among_other_conditions() {
        let assert_number = |number, route: &[u32], change: fn(&mut Route)| {
            let mut call = call(route, 2);
            change(&mut call);
            assert_refused(call, number);
        };
        let too_short = |c: &mut Route| c.scratch = Lent::junk(351, &mut Random::new(0));
        let too_few = |c: &mut Route| c.answers = Lent::junk(5, &mut Random::new(0));
        for no_route in [&[][..], &[0, 2], &[1, 1], &[0, 1, 3]] {
            assert_number(5, no_route, |c| c.network.weights[0] += 1);
            assert_number(6, no_route, |c| c.points[0] = 16);
            assert_number(9, no_route, |c| c.k = 0);
            assert_number(9, no_route, |c| c.k = 17);
            assert_number(10, no_route, too_short);
            assert_number(10, no_route, too_few);
            assert_number(14, no_route, |_| ());
        }
        for no_node in [&[6][..], &[0, 6], &[6, 6], &[0, 2, 6], &[6, 0, 0]] {
            assert_number(4, no_node, |c| c.network.weights[0] = 0);
            assert_number(6, no_node, |c| c.points.truncate(5));
            assert_number(7, no_node, |c| c.k = 0);
            assert_number(7, no_node, too_short);
            assert_number(7, no_node, too_few);
            assert_number(7, no_node, |_| ());
        }
        let all = |c: &mut Route| {
            c.k = 0;
            c.scratch = Lent::junk(0, &mut Random::new(0));
            c.answers = Lent::junk(0, &mut Random::new(0));
        };
        assert_number(7, &[0, 0, 6], all);
        assert_number(9, &[0, 0], all);
        assert_number(9, &[], all);
    }

    /// "m is the k of a search".
    #[test]
    fn scratch_is_s_of_k() {
        let (mut random, pairs) = (Random::new(0), AllPairs::of(network_n().lend()));
        for k in 1..=16 {
            for route in [&[0][..], &[3, 0, 1], &[1, 2, 4], &[0, 1, 0, 3, 0, 1, 2]] {
                for _ in 0..5 {
                    let call = call(route, k);
                    assert_eq!(call.scratch.len(), 96 + 128 * k as usize);
                    assert_scratch_lengths(&call, &mut random, |c| c.accepted_by(&pairs));
                }
            }
        }
    }

    /// The list, and then the old entries.
    #[test]
    fn answers_are_n_or_more() {
        let mut random = Random::new(1);
        for length in [6, 7, 8, 20, 1_000] {
            let mut call = call(&[3, 0, 1], 1);
            call.answers = Lent::junk(length, &mut random);
            assert_list(call, &[2, 4]);
        }
        for length in 0..6 {
            let mut call = call(&[3, 0, 1], 1);
            call.answers = Lent::junk(length, &mut random);
            assert_refused(call, 10);
        }
    }
}

/// "Conditions are tried from 1 upward [...]; the first met is returned".
mod order {
    use super::*;

    #[test]
    fn two_conditions_give_the_lower_number() {
        assert_lower_numbers_first::<Route>();
    }
}

/// Random networks, valid and damaged, against the plain calculation.
mod random {
    use super::*;

    #[test]
    fn engine_and_plain_calculation_agree() {
        let numbers = [0, 1, 2, 3, 4, 5, 6, 7, 9, 10, 14];
        let tally = assert_random_calls::<Route>(&numbers, &Route::TALLIED);
        tally.assert_each_k(LEAST_OF_EACH);
    }
}

/// All networks of up to four nodes with roads of weight 1 or 2.
mod exhaustive {
    use super::*;

    /// For each set of nodes that a walk can cover, one walk that covers it.
    fn walk_of_each_set(network: &OwnedNetwork) -> BTreeMap<BTreeSet<u32>, Vec<u32>> {
        let n = network.starts.len() as u32 - 1;
        let mut walks: Vec<Vec<u32>> = (0..n).map(|node| vec![node]).collect();
        let (mut met, mut of_set) = (BTreeSet::new(), BTreeMap::new());
        while let Some(walk) = walks.pop() {
            let (set, last): (BTreeSet<u32>, u32) =
                (walk.iter().copied().collect(), walk[walk.len() - 1]);
            if met.insert((set.clone(), last)) {
                let longer = |&next: &u32| [&walk[..], &[next]].concat();
                walks.extend(neighbours_of(network, last).iter().map(longer));
                of_set.entry(set).or_insert(walk);
            }
        }
        of_set
    }

    /// Tries all points of a network with a walk of each set of nodes and k from 1 to 3.
    #[test]
    fn up_to_four_nodes() {
        let (mut random, mut calls) = (Random::new(5), 0);
        let (mut last, mut walks) = (OwnedNetwork::default(), BTreeMap::new());
        try_all_small_points(|network, points| {
            if *network != last {
                (last, walks) = (network.clone(), walk_of_each_set(network));
            }
            let pairs = AllPairs::of(network.lend());
            for (walk, k) in walks
                .values()
                .flat_map(|walk| [(walk, 1), (walk, 2), (walk, 3)])
            {
                let call = Route::exact(network, points, (walk, k), &mut random);
                let outcome = call.accepted_by(&pairs);
                assert_outcome(call, &outcome);
                calls += 1;
            }
        });
        assert!(calls > 1_000_000, "{calls}");
    }

    /// All lists of up to this many nodes, one that is no node among them.
    fn lists(n: u32, most: usize) -> Vec<Vec<u32>> {
        let mut lists = vec![vec![]];
        let mut at = 0;
        while at < lists.len() {
            if lists[at].len() < most {
                let with = |node| [&lists[at][..], &[node]].concat();
                let longer: Vec<_> = (0..=n).map(with).collect();
                lists.extend(longer);
            }
            at += 1;
        }
        lists
    }

    /// 0, 7 or 14 of every list.
    #[test]
    fn every_list_of_up_to_three_nodes() {
        let (mut random, mut tally) = (Random::new(6), Tally::default());
        for network in all_small_networks() {
            let n = network.starts.len() as u32 - 1;
            for list in lists(n, 3) {
                let points = some_points(&network, &mut random);
                let asked = (&list[..], random.between(1, 3));
                let call = Route::exact(&network, &points, asked, &mut random);
                tally.add_number(compare(call));
            }
        }
        tally.print();
        tally.assert_numbers(LEAST_OF_EACH, &[0, 7, 14]);
    }
}

/// Routes of up to 300 nodes and more, on networks of some hundred.
mod larger {
    use super::*;

    /// A network with the nearest points of each node, for every k.
    struct Town {
        network: OwnedNetwork,
        points: Vec<u8>,
        nearest: NearestRows,
    }

    impl Town {
        fn of(network: OwnedNetwork, points: Vec<u8>) -> Self {
            let nearest = NearestRows::of(network.lend(), &points, 17);
            Self {
                network,
                points,
                nearest,
            }
        }

        /// Compares with the union of what the single nodes receive, and returns the list.
        fn try_route(&self, route: &[u32], k: u32, random: &mut Random) -> Vec<u32> {
            let list = self.nearest.touched(self.network.lend(), route, k);
            let call = Route::exact(&self.network, &self.points, (route, k), random);
            assert_list(call, &list);
            list
        }

        fn nodes(&self) -> u32 {
            self.points.len() as u32
        }
    }

    /// A point on one node in so many, at times with several lockers.
    fn sparse_points(n: u32, one_in: u32, random: &mut Random) -> Vec<u8> {
        let most = random.pick(&[1, 1, 3, 15]);
        let mut lockers = |_| match random.once_in(one_in) {
            true => random.between(1, most) as u8,
            false => 0,
        };
        (0..n).map(&mut lockers).collect()
    }

    #[test]
    fn walks_of_1_to_300_nodes() {
        let (mut random, mut tally) = (Random::new(7), Tally::default());
        for _ in 0..60 {
            let n = random.between(100, 300);
            let network = random_network_of(n, &mut random);
            let n = network.starts.len() as u32 - 1;
            let one_in = random.pick(&[5, 20, 60]);
            let town = Town::of(network, sparse_points(n, one_in, &mut random));
            for length in [1, 2, 10, 100, 300] {
                let from = some_node(&town.network, &mut random);
                let route = random_walk(&town.network, from, length, &mut random);
                let list = town.try_route(&route, some_k(&mut random), &mut random);
                tally.add_if(route.len() == length, &format!("{length} nodes"));
                tally.add_if(list.len() > 1, "two points or more");
                tally.add_if(list.len() > 10, "eleven points or more");
            }
        }
        tally.print();
        tally.assert_at_least(30, "300 nodes");
        tally.assert_at_least(100, "two points or more");
        tally.assert_at_least(20, "eleven points or more");
    }

    fn try_ks(town: &Town, route: &[u32], random: &mut Random) {
        for k in [1, 2, 4, 16] {
            town.try_route(route, k, random);
        }
    }

    #[test]
    fn chains_to_and_fro() {
        let mut random = Random::new(8);
        for heaviest in [1, 9, 65_535] {
            let weight = |_, _| random.between(1, heaviest);
            let network = weighted(400, &chain(400), weight);
            let town = Town::of(network, sparse_points(400, 10, &mut random));
            for (from, to) in [(0, 5), (190, 210), (150, 299), (398, 400)] {
                let there: Vec<u32> = (from..to).collect();
                let back: Vec<u32> = there.iter().rev().copied().collect();
                try_ks(&town, &there, &mut random);
                try_ks(&town, &back, &mut random);
                try_ks(&town, &to_and_fro(&there, 1_000), &mut random);
            }
        }
    }

    #[test]
    fn rings_round_and_round() {
        let mut random = Random::new(9);
        let network = weighted(300, &ring(300), weight_by_product);
        let town = Town::of(network, sparse_points(300, 10, &mut random));
        let round = |nodes: u32| (0..nodes).map(|step| (step + 290) % 300);
        for nodes in [1, 2, 20, 150, 299, 300, 301, 900, 1_500] {
            let route: Vec<u32> = round(nodes).collect();
            try_ks(&town, &route, &mut random);
        }
        assert!(town
            .try_route(&round(300).collect::<Vec<_>>(), 16, &mut random)
            .is_empty());
    }

    /// From leaf to leaf over the hub.
    #[test]
    fn stars_over_the_hub() {
        let mut random = Random::new(10);
        for centre in [0, 77, 199] {
            let network = weighted(200, &star(200, centre), |_, _| random.between(1, 9));
            let town = Town::of(network, sparse_points(200, 4, &mut random));
            for leaves in [1, 2, 40, 150] {
                let leaf = |_| loop {
                    let leaf = random.below(200);
                    if leaf != centre {
                        break [leaf, centre];
                    }
                };
                let route: Vec<u32> = (0..leaves).flat_map(leaf).collect();
                try_ks(&town, &route, &mut random);
                try_ks(&town, &route[1..], &mut random);
                try_ks(&town, &route[..route.len() - 1], &mut random);
            }
        }
    }

    #[test]
    fn complete_networks() {
        let mut random = Random::new(11);
        let network = weighted(60, &complete(60), |_, _| random.between(1, 9));
        let town = Town::of(network, sparse_points(60, 4, &mut random));
        for length in [1, 2, 5, 30, 60, 300] {
            let route = random_walk(&town.network, 0, length, &mut random);
            try_ks(&town, &route, &mut random);
        }
    }

    /// Along the first rows to and fro, along all of them, and along a column.
    #[test]
    fn streets_of_a_grid() {
        let mut random = Random::new(12);
        let network = weighted(400, &grid(20, 20), weight_by_product);
        let town = Town::of(network, sparse_points(400, 8, &mut random));
        let place = |step: u32| match (step / 20 % 2, step % 20) {
            (0, _) => step,
            (_, at) => step - at + 19 - at,
        };
        let by_rows = |rows: u32| (0..20 * rows).map(place).collect::<Vec<u32>>();
        for rows in [1, 2, 10, 15] {
            try_ks(&town, &by_rows(rows), &mut random);
        }
        assert!(town.try_route(&by_rows(20), 16, &mut random).is_empty());
        let column: Vec<u32> = (0..20).map(|row| row * 20 + 7).collect();
        try_ks(&town, &column, &mut random);
    }

    /// All points that can be reached stand on it.
    #[test]
    fn walks_through_all_nodes() {
        let mut random = Random::new(13);
        for n in [1, 2, 30, 200, 500] {
            for _ in 0..4 {
                let network = random_network_of(n, &mut random);
                let n = network.starts.len() as u32 - 1;
                let town = Town::of(network, sparse_points(n, 3, &mut random));
                let from = random.below(town.nodes());
                let route = walk_through_all(&town.network, from);
                for k in [1, 16] {
                    assert!(town.try_route(&route, k, &mut random).is_empty());
                }
            }
        }
    }
}

/// Against the engine's own lists of single nodes.
mod agreement {
    use super::*;

    /// The list of a single node by eager.
    fn by_eager(network: &OwnedNetwork, points: &[u8], q: u32, k: u32) -> Vec<u32> {
        let mut site = Site::exact_eager(network, points, (q, k), &mut Random::new(0));
        let listing = site.run(EAGER);
        assert_eq!(listing.number, 0);
        site.answers.part()[..listing.length].to_vec()
    }

    /// "[...] and agree with eager on a route of one node."
    #[test]
    fn of_one_node_with_eager() {
        for seed in 0..4_000 {
            let mut random = Random::new(seed);
            let network = random_network(&mut random);
            let points = some_points(&network, &mut random);
            let (q, k) = (some_node(&network, &mut random), some_k(&mut random));
            let list = by_eager(&network, &points, q, k);
            let call = Route::exact(&network, &points, (&[q], k), &mut random);
            assert_list(call, &list);
        }
    }

    /// "One search from all nodes together must equal that union for every route and k from 1 to 16".
    #[test]
    fn of_any_route_with_the_union_by_eager() {
        for seed in 0..2_000 {
            let mut random = Random::new(seed);
            let network = random_network(&mut random);
            let points = some_points(&network, &mut random);
            let route = some_route(&network, &mut random);
            let stops: BTreeSet<u32> = route.iter().copied().collect();
            for k in 1..=16 {
                let received = stops.iter().map(|&q| by_eager(&network, &points, q, k));
                let union: BTreeSet<u32> = received.flatten().collect();
                let list: Vec<u32> = union.difference(&stops).copied().collect();
                let call = Route::exact(&network, &points, (&route, k), &mut random);
                assert_list(call, &list);
            }
        }
    }

    /// One scratch and one array of answers for one call after another, accepted and refused, so that
    /// each finds what the last one left.
    #[test]
    fn of_calls_behind_each_other() {
        for seed in 0..1_000 {
            let mut random = Random::new(seed);
            let network = random_network(&mut random);
            let pairs = AllPairs::of(network.lend());
            let points = some_points(&network, &mut random);
            let mut last = Route::exact(&network, &points, (&[0], 16), &mut random);
            for _ in 0..8 {
                let mut call = last.clone();
                let route = some_route(&network, &mut random);
                call.change_route(&mut random, |nodes| *nodes = route);
                call.k = some_k(&mut random);
                if random.once_in(4) {
                    call.change_route(&mut random, Vec::clear);
                }
                let outcome = match call.number() {
                    0 => call.accepted_by(&pairs),
                    number => call.refused(number),
                };
                assert_outcome(call, &outcome);
                last = outcome.1;
            }
        }
    }
}

/// Networks at document 01's bounds.
mod limits {
    use super::*;

    fn call(network: &OwnedNetwork, points: &[u8], route: &[u32], k: u32) -> Route {
        Route::exact(network, points, (route, k), &mut Random::new(14))
    }

    /// Points at each thousandth node. A stop between two lists both, and a long way the points behind
    /// its ends.
    #[test]
    fn the_longest_chain() {
        let (network, points) = (longest_chain(), each(1_000));
        let from_to = |from: u32, to: u32| (from..=to).collect::<Vec<u32>>();
        let assert_list = |route: &[u32], k, list: &[u32]| {
            super::assert_list(call(&network, &points, route, k), list);
        };
        assert_list(&[32_500], 1, &[32_000, 33_000]);
        assert_list(&from_to(32_400, 32_600), 1, &[32_000, 33_000]);
        assert_list(&from_to(31_400, 33_600), 1, &[31_000, 34_000]);
        // 30,000 has 29,000 and 31,000 nearer, 35,000 has 34,000 and 36,000.
        let route = from_to(31_400, 33_600);
        assert_list(&route, 2, &[31_000, 34_000]);
        assert_list(&route, 3, &[30_000, 31_000, 34_000, 35_000]);
        assert_list(&from_to(0, 999), 1, &[1_000]);
        assert_list(&from_to(64_001, LAST), 1, &[64_000]);
        assert_list(&from_to(0, LAST), 16, &[]);
        assert_list(&from_to(1, 64_999), 16, &[0, 65_000]);
    }

    /// A list of 200,000 nodes, three times as many as the network has.
    #[test]
    fn two_hundred_thousand_nodes_to_and_fro() {
        let (network, points) = (longest_chain(), each(1_000));
        let there: Vec<u32> = (20_500..=32_500).collect();
        let route = to_and_fro(&there, 200_000);
        let list = [20_000, 33_000];
        assert_list(call(&network, &points, &route, 1), &list);
        // The last step of it leaves the roads.
        let mut broken = route;
        broken[199_999] = 50_000;
        assert_refused(call(&network, &points, &broken, 1), 14);
        broken[199_999] = MOST_NODES;
        assert_refused(call(&network, &points, &broken, 1), 7);
    }

    /// A stop on the centre is as near to each leaf as the centre, and one on a leaf is behind it.
    #[test]
    fn a_star_of_the_most_nodes() {
        let centre = 7;
        let network = largest_star(centre);
        let assert_list = |points: &[u32], route: &[u32], list: &[u32]| {
            let points = marks(MOST_NODES, points);
            super::assert_list(call(&network, &points, route, 1), list);
        };
        let leaves = [0, 8, 9, LAST];
        assert_list(&leaves, &[centre], &leaves);
        assert_list(&leaves, &[1, centre], &leaves);
        assert_list(&leaves, &[8, centre, 9], &[0, LAST]);
        assert_list(&[0, centre, LAST], &[LAST], &[centre]);
        assert_list(&[0, centre, LAST], &[LAST, centre], &[0]);
        let points = marks(MOST_NODES, &leaves);
        assert_refused(call(&network, &points, &[8, 9], 1), 14);
    }

    /// A step from the hub is looked up among its 65,534 roads, a million times. By one road after
    /// another that takes some 17 s.
    #[test]
    fn many_steps_over_the_hub_of_a_star() {
        let (network, hub) = (largest_star(0), 0);
        let points = marks(MOST_NODES, &[0, 1, 2, 65_000, LAST]);
        let leaf = |step: u32| 1 + step % 64_999;
        let mut route: Vec<u32> = (0..1_000_000).flat_map(|step| [hub, leaf(step)]).collect();
        let mut timed = call(&network, &points, &route, 1);
        let start = Instant::now();
        assert_eq!(timed.run().number, 0);
        let elapsed = start.elapsed();
        assert!(elapsed < Duration::from_secs(5), "{elapsed:?}");
        assert_list(call(&network, &points, &route, 1), &[65_000, LAST]);
        route.push(leaf(5));
        assert_refused(call(&network, &points, &route, 1), 14);
    }

    #[test]
    fn one_node_without_a_road() {
        let network = OwnedNetwork::from_roads(1, &[]);
        for k in [1, 16] {
            for lockers in 0..=15 {
                assert_list(call(&network, &[lockers], &[0], k), &[]);
                assert_refused(call(&network, &[lockers], &[0, 0], k), 14);
                assert_refused(call(&network, &[lockers], &[], k), 14);
                assert_refused(call(&network, &[lockers], &[1], k), 7);
            }
        }
    }

    /// Sees that the list, which is not empty, is what the nearest points of each node say, by the single
    /// nodes where these are few.
    fn assert_routes(network: &OwnedNetwork, points: &[u8], asked: &[(&[u32], u32)]) {
        let most = asked.iter().map(|&(_, k)| k as usize + 1).max().unwrap();
        let nearest = NearestRows::of(network.lend(), points, most);
        for &(route, k) in asked {
            let list = nearest.touched_together(network.lend(), route, k);
            if route.len() <= 10 {
                assert_eq!(nearest.touched(network.lend(), route, k), list);
            }
            assert!(!list.is_empty(), "k {k}, {} nodes", route.len());
            assert_list(call(network, points, route, k), &list);
        }
    }

    /// A walk of so many nodes from one in the middle.
    fn walk(network: &OwnedNetwork, length: usize) -> Vec<u32> {
        let from = (network.starts.len() as u32 - 1) / 2;
        random_walk(network, from, length, &mut Random::new(15))
    }

    #[test]
    fn a_grid_of_255_by_257_nodes() {
        let network = largest_grid(weight_by_product);
        let long = walk(&network, 200_000);
        let row: Vec<u32> = (127 * 257..128 * 257).collect();
        let asked = [(&long[..10], 1), (&long[..300], 4), (&long, 2), (&row, 1)];
        assert_routes(&network, &each(100), &asked);
        let asked = [(&long[..300], 16), (&long, 1)];
        assert_routes(&network, &several_on_each(100), &asked);
    }

    #[test]
    fn the_most_arcs() {
        for network in [most_roads(weight_by_product), most_roads(|_, _| 1)] {
            assert_eq!(network.neighbours.len(), 524_288);
            let long = walk(&network, 200_000);
            let asked = [(&long[..10], 1), (&long[..300], 2), (&long[..], 1)];
            assert_routes(&network, &each(1_000), &asked);
            assert_routes(&network, &several_on_each(1_000), &[(&long[..300], 4)]);
        }
    }

    #[test]
    fn the_most_arcs_on_the_fewest_nodes() {
        let (n, mut random) = (DENSEST_NODES as usize, Random::new(16));
        let network = densest(|_, _| random.between(1, 65_535));
        assert_eq!(network.neighbours.len(), 524_288);
        let long = walk(&network, 300);
        let asked = [(&long[..1], 1), (&long[..10], 4), (&long[..], 1)];
        assert_routes(&network, &each(50)[..n], &asked);
        assert_routes(&network, &several_on_each(7)[..n], &[(&long[..30], 16)]);
    }
}
