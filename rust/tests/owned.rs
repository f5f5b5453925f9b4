//! The types at the crate's root, compared with document 01, with the plain all-pairs calculation
//! and with the thin calls.

mod common;

use common::all_pairs::AllPairs;
use common::damage;
use common::eager::SHORT_K;
use common::inputs::{
    no_k, no_node, no_places, some_e, some_k, some_node, some_places, some_points,
};
use common::network::{accepted, network_n, N_NODES, N_POINTS, N_ROADS};
use common::plain::plain_check;
use common::random::Random;
use common::route::some_route;
use common::searches::assert_site;
use common::shapes::{belt, grid, random_network, weight_by_product, weighted};
use common::table::PlainTable;
use common::table_damage;
use overlap::calls::{self, eager_scratch_len, scratch_len};
use overlap::{Engine, Expansion, Listed, Network, Points, Refusal, Table, NONE};

/// The answer of eager that has this list and these visits.
fn expansion<'a>(points: &'a [u32], visits: &'a [u32]) -> Expansion<'a> {
    Expansion {
        points,
        expanded: visits.len() as u32,
        visits,
    }
}

fn n_and_points() -> (Network, Points) {
    let network = Network::from_roads(N_NODES, &N_ROADS).unwrap();
    let points = Points::on(&network, N_POINTS).unwrap();
    (network, points)
}

/// Network N of document 01, by hand.
mod network_n {
    use super::*;

    #[test]
    fn p1_to_p5() {
        let (network, points) = n_and_points();
        let mut engine = Engine::new(&network);
        for (q, k, list, visits) in [
            (0, 1, &[2][..], &[0][..]),
            (0, 2, &[2, 4], &[0, 1, 3, 2]),
            (1, 1, &[2], &[1, 0]),
            (2, 1, &[4], &[2, 1, 0]),
            (5, 1, &[], &[5]),
        ] {
            let mut table = Table::build(&network, points.clone(), k + 1).unwrap();
            assert_site(&mut engine, &mut table, (q, k), list, visits);
        }
    }

    /// "P1 as a short query gives 2, 4."
    #[test]
    fn p1_to_p5_as_short_queries() {
        let (network, points) = n_and_points();
        let mut engine = Engine::new(&network);
        for (q, points_of_q, expanded) in [
            (0, &[2, 4][..], 4),
            (1, &[2, 4], 4),
            (2, &[4], 5),
            (5, &[], 1),
        ] {
            let listed = Listed {
                points: points_of_q,
                expanded,
            };
            assert_eq!(engine.short_query(&points, q), Ok(listed));
        }
    }

    #[test]
    fn p6_without_points() {
        let (network, _) = n_and_points();
        let (mut engine, none) = (Engine::new(&network), Points::none(&network));
        for (q, visits) in [(0, [0, 1, 3, 2, 4]), (2, [2, 1, 0, 4, 3])] {
            let is = engine.eager(&none, q, 1, u32::MAX);
            assert_eq!(is, Ok(expansion(&[], &visits)));
        }
    }

    #[test]
    fn p7_with_the_road_2_4_of_6() {
        let roads = [(0, 1, 4), (0, 3, 5), (1, 2, 3), (2, 4, 6), (3, 4, 3)];
        let network = Network::from_roads(6, &roads).unwrap();
        let points = Points::on(&network, [2, 4, 5]).unwrap();
        let mut engine = Engine::new(&network);
        let is = engine.eager(&points, 0, 1, 65_535);
        assert_eq!(is, Ok(expansion(&[], &[0])));
    }

    #[test]
    fn p8_to_p10() {
        let (network, points) = n_and_points();
        let mut table = Table::build(&network, points, 2).unwrap();
        assert!(table.row(0).unwrap().iter().eq([(2, 7), (4, 8)]));
        assert!(table.row(5).unwrap().iter().eq([(5, 0)]));
        assert_eq!(table.lend().ids[10..], [5, NONE]);
        assert_eq!(table.lend().distances[10..], [0, NONE]);
        assert_eq!(table.insert(0), Ok(4));
        assert!(table.row(2).unwrap().iter().eq([(2, 0), (0, 7)]));
        assert!(table.points().iter().eq([0, 2, 4, 5]));
        assert_eq!(table.remove(0), Ok(4));
        assert!(table.into_points().iter().eq([2, 4, 5]));
    }

    #[test]
    fn distances_of_a_node_that_is_alone() {
        let (network, _) = n_and_points();
        let mut engine = Engine::new(&network);
        let distances = engine.distances(5).unwrap();
        assert_eq!(distances.words(), [NONE, NONE, NONE, NONE, NONE, 0]);
        let reached: Vec<_> = (0..7).map(|node| distances.to(node)).collect();
        assert_eq!(reached, [None, None, None, None, None, Some(0), None]);
    }
}

/// Networks: what is accepted, and what is kept.
mod networks {
    use super::*;

    #[test]
    fn arrays_are_refused_as_the_plain_check_says() {
        let mut seen = [0; 6];
        for seed in 0..20_000 {
            let mut random = Random::new(seed);
            let mut arrays = random_network(&mut random);
            damage::damage(&mut arrays, random.pick(&[0, 1, 1, 2]), &mut random);
            let number = plain_check(arrays.lend());
            let network = accepted(&arrays);
            assert_eq!(network.as_ref().err().map_or(0, |r| r.number()), number);
            seen[number as usize] += 1;
            if let Ok(network) = network {
                assert_eq!(network.starts(), arrays.starts);
                assert_eq!(network.neighbours(), arrays.neighbours);
                assert_eq!(network.weights(), arrays.weights);
            }
        }
        assert!(seen.iter().all(|&times| times >= 200), "{seen:?}");
    }

    #[test]
    fn roads_in_any_order_make_the_same_network() {
        for seed in 0..2_000 {
            let mut random = Random::new(seed);
            let network = accepted(&random_network(&mut random)).unwrap();
            let mut roads: Vec<_> = network.roads().collect();
            assert_eq!(roads.len() * 2, network.neighbours().len());
            for road in &mut roads {
                if random.once_in(2) {
                    *road = (road.1, road.0, road.2);
                }
            }
            random.shuffle(&mut roads);
            assert_eq!(Network::from_roads(network.nodes(), &roads), Ok(network));
        }
    }

    #[test]
    fn the_roads_of_a_node_are_its_part_of_the_arrays() {
        let (network, _) = n_and_points();
        assert!(network.roads_of(4).unwrap().eq([(2, 7), (3, 3)]));
        assert_eq!(network.roads_of(5).unwrap().count(), 0);
        assert_eq!(network.roads_of(6).err(), Some(Refusal::Node));
        assert!(network.roads().eq(N_ROADS));
    }

    #[test]
    fn roads_are_refused() {
        let refusal = |nodes, roads: &[_]| Network::from_roads(nodes, roads).err();
        for nodes in [0, 65_536, u32::MAX] {
            assert_eq!(refusal(nodes, &[]), Some(Refusal::StartsLength));
            // 1 is tried before 3.
            let roads = [(0, 0, 0), (0, u32::MAX, 0)];
            assert_eq!(refusal(nodes, &roads), Some(Refusal::StartsLength));
        }
        assert_eq!(refusal(65_535, &[(0, 65_534, 65_535)]), None);
        for road in [(0, 2, 1), (2, 0, 1), (0, u32::MAX, 1), (1, 1, 1)] {
            assert_eq!(refusal(2, &[road]), Some(Refusal::Neighbours));
        }
        // 3 is tried before 4.
        assert_eq!(refusal(2, &[(0, 2, 0)]), Some(Refusal::Neighbours));
        for again in [(0, 1, 4), (1, 0, 4), (0, 1, 5)] {
            assert_eq!(refusal(2, &[(0, 1, 4), again]), Some(Refusal::Neighbours));
        }
        for weight in [0, 65_536, u32::MAX] {
            assert_eq!(refusal(2, &[(0, 1, weight)]), Some(Refusal::Weights));
        }
    }

    #[test]
    fn the_most_roads_and_one_more() {
        let most = weighted(1_000, &belt(1_000, 262_144), |_, _| 1);
        let mut roads: Vec<_> = accepted(&most).unwrap().roads().collect();
        assert!(Network::from_roads(1_000, &roads).is_ok());
        roads.push((0, 1_000, 0));
        assert_eq!(Network::from_roads(1_000, &roads), Err(Refusal::Starts));
    }

    #[test]
    fn a_clone_shares_the_arrays() {
        let (network, _) = n_and_points();
        let clone = network.clone();
        assert_eq!(network.starts().as_ptr(), clone.starts().as_ptr());
    }

    #[test]
    fn scratch_is_s_of_document_01() {
        let (network, _) = n_and_points();
        for m in 0..=17 {
            assert_eq!(network.scratch_len(m), 96 + 128 * m as usize);
            let by_call = scratch_len(network_n().lend(), m as usize);
            assert_eq!(network.scratch_len(m), by_call);
        }
    }

    #[test]
    fn scratch_of_eager_is_that_of_the_thin_calls() {
        for seed in 0..200 {
            let arrays = random_network(&mut Random::new(seed));
            let length = accepted(&arrays).unwrap().eager_scratch_len();
            assert_eq!(length, eager_scratch_len(arrays.lend()));
        }
    }
}

/// Points: the lockers on each node.
mod points {
    use super::*;

    /// A node for each of its lockers, in any order.
    fn each_locker(marks: &[u8], random: &mut Random) -> Vec<u32> {
        let of_node = |(node, &lockers): (u32, &u8)| std::iter::repeat_n(node, lockers.into());
        let mut nodes: Vec<u32> = (0..).zip(marks).flat_map(of_node).collect();
        random.shuffle(&mut nodes);
        nodes
    }

    #[test]
    fn are_their_marks() {
        let mut several = 0;
        for seed in 0..1_000 {
            let mut random = Random::new(seed);
            let arrays = random_network(&mut random);
            let network = accepted(&arrays).unwrap();
            let marks = some_points(&arrays, &mut random);
            let points = Points::from_marks(&network, marks.clone()).unwrap();
            let lockers = |node: &u32| marks[*node as usize];
            let nodes: Vec<u32> = (0..network.nodes()).filter(|p| lockers(p) > 0).collect();
            assert!(points.iter().eq(nodes.iter().copied()));
            for node in 0..network.nodes() {
                assert_eq!(points.count(node), lockers(&node).into());
                assert_eq!(points.contains(node), nodes.contains(&node));
            }
            let each = each_locker(&marks, &mut random);
            assert_eq!(
                (points.len(), points.is_empty()),
                (each.len(), each.is_empty())
            );
            several += usize::from(each.len() > nodes.len());
            assert_eq!(Points::on(&network, each).as_ref(), Ok(&points));
            assert_eq!(points.marks(), marks);
        }
        assert!(several >= 300, "{several}");
    }

    #[test]
    fn change_one_by_one() {
        let (network, mut points) = n_and_points();
        assert_eq!(points.remove(3), Err(Refusal::Mark));
        for node in [6, u32::MAX] {
            assert_eq!(points.insert(node), Err(Refusal::Node));
            assert_eq!(points.remove(node), Err(Refusal::Node));
            assert!(!points.contains(node));
            assert_eq!(points.count(node), 0);
        }
        assert_eq!(points, Points::on(&network, N_POINTS).unwrap());
        assert_eq!(points.insert(3), Ok(()));
        assert_eq!(points.remove(2), Ok(()));
        assert!(points.contains(3) && !points.contains(2));
        assert!(points.iter().eq([3, 4, 5]));
    }

    #[test]
    fn have_up_to_15_lockers_on_a_node() {
        let (_, mut points) = n_and_points();
        for lockers in 2..=15 {
            assert_eq!(points.insert(2), Ok(()));
            assert_eq!(
                (points.count(2), points.len()),
                (lockers, lockers as usize + 2)
            );
            assert!(points.iter().eq([2, 4, 5]));
        }
        assert_eq!(points.insert(2), Err(Refusal::Mark));
        assert_eq!(points.marks(), [0, 0, 15, 0, 1, 1]);
        for lockers in (0..15).rev() {
            assert_eq!(points.remove(2), Ok(()));
            assert_eq!(
                (points.count(2), points.contains(2)),
                (lockers, lockers > 0)
            );
        }
        assert_eq!(points.remove(2), Err(Refusal::Mark));
        assert_eq!(points.marks(), [0, 0, 0, 0, 1, 1]);
    }

    #[test]
    fn are_refused() {
        let (network, _) = n_and_points();
        assert_eq!(Points::on(&network, [0, 6]), Err(Refusal::Node));
        assert!(Points::on(&network, [0; 15]).is_ok());
        assert_eq!(Points::on(&network, [0; 16]), Err(Refusal::Mark));
        for marks in [vec![], vec![0; 5], vec![0; 7]] {
            assert_eq!(Points::from_marks(&network, marks), Err(Refusal::Points));
        }
        for byte in 0..=255 {
            let points = Points::from_marks(&network, vec![0, 0, 0, 0, 0, byte]);
            assert_eq!(points.err(), (byte > 15).then_some(Refusal::Points));
        }
    }
}

/// The calls without a table, one engine for many of them.
mod engine {
    use super::*;

    /// The answer of a thin call that lists points.
    type Thin = (Result<(), u32>, Vec<u32>, u32);

    /// The list of a thin search with scratch of this length and enough places for answers.
    fn thin(
        network: &Network,
        scratch: usize,
        call: impl FnOnce(&mut [u32], &mut [u32]) -> calls::Listing,
    ) -> Thin {
        let mut scratch = vec![7; scratch];
        let mut answers = vec![7; network.nodes() as usize];
        let listing = call(&mut scratch, &mut answers);
        answers.truncate(listing.length);
        let number = listing.accepted().map(|_| ()).map_err(|r| r.number());
        (number, answers, listing.count)
    }

    /// Compares eager with this list and these visits, and with its thin call.
    fn assert_eager(
        engine: &mut Engine,
        points: &Points,
        (q, k): (u32, u32),
        list: &[u32],
        visits: &[u32],
    ) {
        let (network, marks) = (engine.network().clone(), points.marks());
        let count = visits.len() as u32;
        let is = engine.eager(points, q, k, count);
        assert_eq!(is, Ok(expansion(list, visits)));
        let mut visited = vec![7; marks.len()];
        let by_call = thin(&network, network.eager_scratch_len(), |s, a| {
            calls::eager(network.lend(), marks, q, k, count, s, a, &mut visited)
        });
        assert_eq!(by_call, (Ok(()), list.to_vec(), count));
        assert_eq!(visited[..visits.len()], *visits);
        let refusal = engine.eager(points, q, k, count - 1);
        assert_eq!(refusal, Err(Refusal::Limit));
    }

    /// Compares each search with the plain calculation and with its thin call.
    fn assert_searches(engine: &mut Engine, pairs: &AllPairs, points: &Points, q: u32, k: u32) {
        let (network, marks) = (engine.network().clone(), points.marks());
        let lent = network.lend();
        let list = pairs.plain_listed(marks, q, k);
        let visits = pairs.plain_visits(marks, q, k);
        assert_eager(engine, points, (q, k), &list, &visits);

        let (small, by_s) = (network.eager_scratch_len(), network.scratch_len(k));
        assert_eq!(engine.lazy(points, q, k), Ok(&list[..]));
        let by_call = thin(&network, by_s, |s, a| calls::lazy(lent, marks, q, k, s, a));
        assert_eq!(by_call, (Ok(()), list.clone(), 0));

        assert_eq!(engine.lazy_ep(points, q, k), Ok(&list[..]));
        let by_call = thin(&network, by_s, |s, a| {
            calls::lazy_ep(lent, marks, q, k, s, a)
        });
        assert_eq!(by_call, (Ok(()), list, 0));

        let short = engine.short_query(points, q).unwrap();
        let list = pairs.plain_listed(marks, q, SHORT_K);
        let expanded = pairs.plain_expanded(marks, q, SHORT_K);
        assert_eq!((short.points, short.expanded), (&list[..], expanded));
        let by_call = thin(&network, small, |s, a| {
            calls::short_query(lent, marks, q, s, a)
        });
        assert_eq!(by_call, (Ok(()), list, expanded));
    }

    #[test]
    fn and_plain_calculation_agree() {
        for seed in 0..2_000 {
            let mut random = Random::new(seed);
            let arrays = random_network(&mut random);
            let pairs = AllPairs::of(arrays.lend());
            let network = accepted(&arrays).unwrap();
            let mut engine = Engine::new(&network);
            for _ in 0..8 {
                let marks = some_points(&arrays, &mut random);
                let points = Points::from_marks(&network, marks.clone()).unwrap();
                let (q, k) = (some_node(&arrays, &mut random), some_k(&mut random));
                assert_searches(&mut engine, &pairs, &points, q, k);
                let distances = engine.distances(q).unwrap();
                assert_eq!(distances.words(), pairs.plain_distances(q));
                let e = some_e(pairs.row(q), &mut random);
                let nearest = engine.nearest(&points, q, e, k).unwrap();
                let near = pairs.plain_nearest(&marks, q, e, k);
                assert_eq!(nearest.into_iter().collect::<Vec<_>>(), near);
                assert_eq!(
                    (nearest.len(), nearest.is_empty()),
                    (near.len(), near.is_empty())
                );
                for p in points.iter() {
                    let yes = pairs.plain_verify(&marks, p, q, k);
                    assert_eq!(engine.verify(&points, p, q, k), Ok(yes));
                }
            }
        }
    }

    /// Ask 1: compares the list and the sheet with the plain calculation and with the thin calls.
    #[test]
    fn and_plain_calculation_agree_on_households() {
        for seed in 0..2_000 {
            let mut random = Random::new(seed);
            let arrays = random_network(&mut random);
            let pairs = AllPairs::of(arrays.lend());
            let network = accepted(&arrays).unwrap();
            let mut engine = Engine::new(&network);
            for _ in 0..4 {
                let bytes = [(); 2].map(|()| some_points(&arrays, &mut random));
                let points = bytes.map(|marks| Points::from_marks(&network, marks).unwrap());
                let (q, k) = (some_node(&arrays, &mut random), some_k(&mut random));
                assert_households(&mut engine, &pairs, [&points[0], &points[1]], (q, k));
            }
        }
    }

    fn assert_households(
        engine: &mut Engine,
        pairs: &AllPairs,
        points: [&Points; 2],
        (q, k): (u32, u32),
    ) {
        let network = engine.network().clone();
        let [households, sites] = points.map(Points::marks);
        let list = pairs.plain_households(households, sites, q, k);
        let listed = engine.households(points[0], points[1], q, k);
        assert_eq!(listed, Ok(&list[..]));
        let by_call = thin(&network, network.scratch_len(k), |s, a| {
            calls::households(network.lend(), households, sites, q, k, s, a)
        });
        assert_eq!(by_call, (Ok(()), list, 0));
        let sheet = pairs.plain_sheet(households, sites);
        assert_eq!(engine.sheet(points[0], points[1]), Ok(&sheet[..]));
        let mut scratch = vec![7; network.scratch_len(1)];
        let mut answers = vec![7; network.nodes() as usize];
        let (s, a) = (&mut scratch[..], &mut answers[..]);
        let number = calls::sheet(network.lend(), households, sites, s, a);
        assert_eq!((number, answers), (0, sheet));
    }

    /// "6 covers each byte array [...], in the order lent."
    #[test]
    fn refuses_households_that_the_thin_calls_refuse() {
        let (network, points) = n_and_points();
        let mut engine = Engine::new(&network);
        let foreign = Points::none(&Network::from_roads(5, &[]).unwrap());
        for (households, sites) in [(&foreign, &points), (&points, &foreign)] {
            let list = engine.households(households, sites, 6, 0);
            assert_eq!(list, Err(Refusal::Points));
            let sheet = engine.sheet(households, sites);
            assert_eq!(sheet, Err(Refusal::Points));
        }
        let mut list = |q, k| engine.households(&points, &points, q, k).err();
        assert_eq!(list(6, 0), Some(Refusal::Node));
        for k in [0, 17, u32::MAX] {
            assert_eq!(list(0, k), Some(Refusal::K));
        }
    }

    /// "the m of 10 is this k, and 1 for the sheet."
    #[test]
    fn has_scratch_of_s_for_households_and_the_sheet() {
        let (network, points) = n_and_points();
        let mut engine = Engine::new(&network);
        assert!(engine.sheet(&points, &points).is_ok());
        assert_buffers(&engine, network.scratch_len(1), 0);
        for k in 1..=16 {
            assert!(engine.households(&points, &points, 0, k).is_ok());
            assert_buffers(&engine, network.scratch_len(k), 0);
        }
    }

    /// Ask 7: compares the list of a route with the plain calculation and with the thin call, and that of
    /// one node with eager's.
    #[test]
    fn and_plain_calculation_agree_on_routes() {
        for seed in 0..2_000 {
            let mut random = Random::new(seed);
            let arrays = random_network(&mut random);
            let pairs = AllPairs::of(arrays.lend());
            let network = accepted(&arrays).unwrap();
            let mut engine = Engine::new(&network);
            for _ in 0..8 {
                let marks = some_points(&arrays, &mut random);
                let points = Points::from_marks(&network, marks).unwrap();
                let (route, k) = (some_route(&arrays, &mut random), some_k(&mut random));
                assert_route(&mut engine, &pairs, &points, &route, k);
                let list = engine.route(&points, &route[..1], k).unwrap().to_vec();
                let by_eager = engine.eager(&points, route[0], k, 65_535).unwrap();
                assert_eq!(by_eager.points, list);
            }
        }
    }

    fn assert_route(engine: &mut Engine, pairs: &AllPairs, points: &Points, route: &[u32], k: u32) {
        let (network, marks) = (engine.network().clone(), points.marks());
        let list = pairs.plain_touched(marks, route, k);
        assert_eq!(engine.route(points, route, k), Ok(&list[..]));
        let by_call = thin(&network, network.scratch_len(k), |s, a| {
            calls::route(network.lend(), marks, route, k, s, a)
        });
        assert_eq!(by_call, (Ok(()), list, 0));
    }

    /// In this order they are met: 6, 7, 9, 14.
    #[test]
    fn refuses_routes_that_the_thin_call_refuses() {
        let (network, points) = n_and_points();
        let mut engine = Engine::new(&network);
        let foreign = Points::none(&Network::from_roads(5, &[]).unwrap());
        let mut refusal = |points: &Points, route: &[u32], k| engine.route(points, route, k).err();
        assert_eq!(refusal(&foreign, &[0, 0, 6], 0), Some(Refusal::Points));
        for no_route in [&[][..], &[0, 0], &[0, 2], &[3, 0, 1, 4], &[5, 0]] {
            let with_6 = [no_route, &[6]].concat();
            assert_eq!(refusal(&points, &with_6, 0), Some(Refusal::Node));
            for k in [0, 17, u32::MAX] {
                assert_eq!(refusal(&points, no_route, k), Some(Refusal::K));
            }
            for k in [1, 16] {
                assert_eq!(refusal(&points, no_route, k), Some(Refusal::Route));
            }
        }
        assert_eq!(refusal(&points, &[3, 0, 1], 1), None);
    }

    /// "m is the k of a search".
    #[test]
    fn has_scratch_of_s_for_routes() {
        let (network, points) = n_and_points();
        let mut engine = Engine::new(&network);
        for k in 1..=16 {
            assert!(engine.route(&points, &[3, 0, 1], k).is_ok());
            assert_buffers(&engine, network.scratch_len(k), 0);
        }
    }

    #[test]
    fn refuses_what_the_thin_calls_refuse() {
        let (network, points) = n_and_points();
        let mut engine = Engine::new(&network);
        let foreign = Points::none(&Network::from_roads(5, &[]).unwrap());
        let (mut random, arrays) = (Random::new(1), network_n());
        // In this order they are met: 6, 7, 9, 11.
        for _ in 0..200 {
            let (none, k) = (no_node(&arrays, &mut random), no_k(&mut random));
            assert_all(&mut engine, &foreign, none, k, Refusal::Points);
            assert_all(&mut engine, &points, none, k, Refusal::Node);
            assert_eq!(engine.distances(none), Err(Refusal::Node));
            let short = engine.short_query(&points, none);
            assert_eq!(short, Err(Refusal::Node));
            assert_all(&mut engine, &points, 3, k, Refusal::K);
            let node_of_q = engine.verify(&points, 2, none, 1);
            assert_eq!(node_of_q, Err(Refusal::Node));
        }
        assert_eq!(engine.short_query(&foreign, 0), Err(Refusal::Points));
        assert_eq!(engine.verify(&points, 3, 0, 1), Err(Refusal::Mark));
        assert_eq!(engine.eager(&points, 0, 2, 3), Err(Refusal::Limit));
    }

    /// Sees that all calls of points, a node and k give this refusal.
    fn assert_all(engine: &mut Engine, points: &Points, node: u32, k: u32, refusal: Refusal) {
        assert_eq!(engine.nearest(points, node, NONE, k), Err(refusal));
        assert_eq!(engine.verify(points, node, 0, k), Err(refusal));
        assert_eq!(engine.eager(points, node, k, u32::MAX), Err(refusal));
        assert_eq!(engine.lazy(points, node, k), Err(refusal));
        assert_eq!(engine.lazy_ep(points, node, k), Err(refusal));
    }

    /// Each thread has an engine; the network and the points are lent to all.
    #[test]
    fn threads_share_a_network() {
        let arrays = weighted(60, &grid(6, 10), weight_by_product);
        let (network, pairs) = (accepted(&arrays).unwrap(), AllPairs::of(arrays.lend()));
        let points = Points::on(&network, (0..network.nodes()).step_by(3)).unwrap();
        let lists_of = |k| {
            let mut engine = Engine::new(&network);
            for q in 0..network.nodes() {
                let list = pairs.plain_listed(points.marks(), q, k);
                assert_eq!(engine.lazy(&points, q, k), Ok(&list[..]));
            }
        };
        let lists_of = &lists_of;
        std::thread::scope(|scope| {
            for k in 1..=16 {
                scope.spawn(move || lists_of(k));
            }
        });
    }

    /// Sees that the engine has allocated so many words of scratch and so many for visits, which is
    /// all that it shows of them.
    fn assert_buffers(engine: &Engine, words: usize, visits: usize) {
        let shown = format!("{engine:?}");
        let lengths = format!("scratch_len: {words}, answers_len: 6, visits_len: {visits}");
        let buffers = format!("Buffers {{ {lengths} }}");
        assert!(shown.contains(&buffers), "{shown}");
    }

    /// Scratch can be millions of words.
    #[test]
    fn is_shown_without_the_words_of_scratch() {
        let (network, points) = n_and_points();
        let mut engine = Engine::new(&network);
        engine.lazy(&points, 0, 16).unwrap();
        assert_buffers(&engine, 2_144, 0);
    }

    /// "Eager, verify and the short query shall work with 12 × n entries for every k."
    #[test]
    fn has_scratch_of_12_n_for_eager_verify_and_the_short_query() {
        let (network, points) = n_and_points();
        let (small, by_s) = (network.eager_scratch_len(), network.scratch_len(16));
        let mut engine = Engine::new(&network);
        for k in 1..=16 {
            engine.eager(&points, 0, k, 6).unwrap();
            engine.verify(&points, 2, 0, k).unwrap();
            engine.short_query(&points, 0).unwrap();
            assert_buffers(&engine, small, 6);
        }
        for call in [
            |e: &mut Engine, p: &Points| e.lazy(p, 0, 16).map(|_| ()),
            |e: &mut Engine, p: &Points| e.lazy_ep(p, 0, 16).map(|_| ()),
            |e: &mut Engine, p: &Points| e.nearest(p, 0, NONE, 16).map(|_| ()),
        ] {
            let mut engine = engine.clone();
            assert_eq!(call(&mut engine, &points), Ok(()));
            assert_buffers(&engine, by_s, 0);
            // What is there already serves them too.
            let is = engine.eager(&points, 0, 2, 6);
            assert_eq!(is, Ok(expansion(&[2, 4], &[0, 1, 3, 2])));
            assert_buffers(&engine, by_s, 6);
        }
    }

    #[test]
    fn a_clone_answers_alike() {
        let (network, points) = n_and_points();
        let mut engine = Engine::new(&network);
        assert_eq!(engine.lazy(&points, 0, 16).unwrap(), [2, 4]);
        let mut clone = engine.clone();
        assert_eq!(clone.lazy(&points, 0, 16), engine.lazy(&points, 0, 16));
        assert_eq!(clone.network(), &network);
    }
}

/// The table with its points.
mod table {
    use super::*;

    /// Sees that the table is the one of these marks.
    fn assert_table(table: &Table, pairs: &AllPairs, marks: &[u8], places: u32) {
        let plain = PlainTable::of(pairs, marks, places);
        assert_eq!(table.points().marks(), marks);
        assert_eq!((table.places(), table.lend().places), (places, places));
        assert_eq!(table.lend().ids, plain.ids);
        assert_eq!(table.lend().distances, plain.distances);
        assert!(table.check());
        for node in 0..table.network().nodes() {
            let mut row = plain.row(node);
            row.retain(|entry| entry.0 != NONE);
            assert!(table.row(node).unwrap().iter().eq(row));
        }
    }

    enum Change {
        Insert,
        Remove,
    }

    /// Adds a locker or takes one, as can be.
    fn change(lockers: &mut u8, random: &mut Random) -> Change {
        if *lockers == 0 || *lockers < 15 && random.once_in(2) {
            *lockers += 1;
            Change::Insert
        } else {
            *lockers -= 1;
            Change::Remove
        }
    }

    #[test]
    fn a_node_is_refused_at_15_lockers_and_at_none() {
        let (network, _) = n_and_points();
        let pairs = AllPairs::of(network.lend());
        let marks = [15, 0, 15, 0, 0, 15];
        for places in 2..=17 {
            let points = Points::from_marks(&network, marks.to_vec()).unwrap();
            let mut table = Table::build(&network, points, places).unwrap();
            for node in 0..N_NODES {
                let refused = match marks[node as usize] {
                    0 => table.remove(node),
                    _ => table.insert(node),
                };
                assert_eq!(refused, Err(Refusal::Mark));
                assert_table(&table, &pairs, &marks, places);
            }
        }
    }

    #[test]
    fn follows_its_points() {
        for seed in 0..1_000 {
            let mut random = Random::new(seed);
            let arrays = random_network(&mut random);
            let pairs = AllPairs::of(arrays.lend());
            let network = accepted(&arrays).unwrap();
            let mut marks = some_points(&arrays, &mut random);
            let places = some_places(&mut random);
            let points = Points::from_marks(&network, marks.clone()).unwrap();
            let mut table = Table::build(&network, points, places).unwrap();
            assert_table(&table, &pairs, &marks, places);
            for _ in 0..20 {
                let node = some_node(&arrays, &mut random);
                let before = PlainTable::of(&pairs, &marks, places);
                let done = match change(&mut marks[node as usize], &mut random) {
                    Change::Insert => table.insert(node),
                    Change::Remove => table.remove(node),
                };
                let changed = before.changed(&PlainTable::of(&pairs, &marks, places));
                assert_eq!(done, Ok(changed));
                assert_table(&table, &pairs, &marks, places);
                let (q, k) = (
                    some_node(&arrays, &mut random),
                    random.between(1, places - 1),
                );
                let list = pairs.plain_listed(&marks, q, k);
                assert_eq!(table.query(q, k), Ok(&list[..]));
            }
        }
    }

    /// "Table check: yes exactly when both arrays are the table that build would write, whoever
    /// filled them."
    #[test]
    fn comes_from_arrays_behind_the_check_alone() {
        let (mut taken, mut denied) = (0, 0);
        for seed in 0..10_000 {
            let mut random = Random::new(seed);
            let arrays = random_network(&mut random);
            let pairs = AllPairs::of(arrays.lend());
            let network = accepted(&arrays).unwrap();
            let marks = some_points(&arrays, &mut random);
            let points = Points::from_marks(&network, marks.clone()).unwrap();
            let right = PlainTable::of(&pairs, &marks, some_places(&mut random));
            let mut lent = right.clone();
            table_damage::damage(&mut lent, random.pick(&[0, 1, 2]), &mut random);
            let is_table = lent == right;
            let PlainTable {
                places,
                ids,
                distances,
            } = lent;
            let table = Table::from_arrays(&network, points, places, ids, distances).unwrap();
            assert_eq!(table.is_some(), is_table);
            match table {
                Some(table) => assert_table(&table, &pairs, &marks, places),
                None => denied += 1,
            }
            taken += u32::from(is_table);
        }
        assert!(taken >= 2_000 && denied >= 2_000, "{taken}, {denied}");
    }

    #[test]
    fn refuses_what_the_thin_calls_refuse() {
        let (network, points) = n_and_points();
        let foreign = Points::none(&Network::from_roads(5, &[]).unwrap());
        let mut random = Random::new(2);
        for _ in 0..200 {
            let places = no_places(&mut random);
            let refusal = |points: &Points, places| {
                let points = points.clone();
                Table::build(&network, points, places).err()
            };
            assert_eq!(refusal(&foreign, places), Some(Refusal::Points));
            assert_eq!(refusal(&points, places), Some(Refusal::Table));
        }
        let from_arrays = |points: &Points, places, ids, distances| {
            let (ids, distances) = (vec![0; ids], vec![0; distances]);
            Table::from_arrays(&network, points.clone(), places, ids, distances).err()
        };
        assert_eq!(from_arrays(&foreign, 1, 0, 0), Some(Refusal::Points));
        // The example of document 01 for number 8.
        assert_eq!(from_arrays(&points, 2, 11, 12), Some(Refusal::Table));
        assert_eq!(from_arrays(&points, 2, 12, 13), Some(Refusal::Table));
        assert_eq!(from_arrays(&points, 18, 108, 108), Some(Refusal::Table));
        assert_eq!(from_arrays(&points, 2, 12, 12), None);
        let mut table = Table::build(&network, points, 3).unwrap();
        for node in [6, 65_536, u32::MAX] {
            assert_eq!(table.row(node), Err(Refusal::Node));
            assert_eq!(table.insert(node), Err(Refusal::Node));
            assert_eq!(table.remove(node), Err(Refusal::Node));
            // 7 is tried before 9.
            assert_eq!(table.query(node, 3), Err(Refusal::Node));
        }
        for k in [0, 3, 16, 17, u32::MAX] {
            assert_eq!(table.query(0, k), Err(Refusal::K));
        }
        assert_table(
            &table,
            &AllPairs::of(network.lend()),
            &[0, 0, 1, 0, 1, 1],
            3,
        );
    }

    /// Ask 1: the row is a part of one of the two tables, the own one when they are equally near.
    #[test]
    fn and_a_rivals_give_the_nearer_row() {
        let mut rivals = 0;
        for seed in 0..2_000 {
            let mut random = Random::new(seed);
            let arrays = random_network(&mut random);
            let (network, places) = (accepted(&arrays).unwrap(), some_places(&mut random));
            let [own, rival] = [(); 2].map(|()| {
                let marks = some_points(&arrays, &mut random);
                let points = Points::from_marks(&network, marks).unwrap();
                Table::build(&network, points, places).unwrap()
            });
            for node in 0..network.nodes() {
                let first = |table: &Table| table.lend().distances[(node * places) as usize];
                let is_rivals = first(&rival) < first(&own);
                let of = if is_rivals { &rival } else { &own };
                let row = own.nearer_row(&rival, node).unwrap();
                assert_eq!(row.is_rivals, is_rivals);
                let part = &of.lend().distances[(node * places) as usize..];
                assert_eq!(row.distances.as_ptr(), part.as_ptr());
                assert_eq!(row.distances, &part[..places as usize]);
                rivals += usize::from(is_rivals);
            }
            let none = no_node(&arrays, &mut random);
            assert_eq!(own.nearer_row(&rival, none), Err(Refusal::Node));
        }
        assert!(rivals >= 2_000, "{rivals}");
    }

    /// A rival's table of another K or n, also where its arrays are as long.
    #[test]
    fn refuses_a_rivals_of_another_size() {
        let table = |nodes, places| {
            let network = Network::from_roads(nodes, &[]).unwrap();
            Table::build(&network, Points::none(&network), places).unwrap()
        };
        let own = table(6, 2);
        for (nodes, places) in [(6, 3), (5, 2), (7, 2), (4, 3), (3, 4), (2, 6)] {
            let rival = table(nodes, places);
            assert_eq!(own.nearer_row(&rival, 0), Err(Refusal::Table));
            assert_eq!(own.nearer_row(&rival, 6), Err(Refusal::Node));
        }
        assert!(own.nearer_row(&table(6, 2), 5).is_ok());
    }

    /// A clone of the points, or of the table, goes its own way.
    #[test]
    fn is_not_changed_by_clones() {
        let (network, points) = n_and_points();
        let mut table = Table::build(&network, points, 2).unwrap();
        let mut points = table.points().clone();
        points.insert(0).unwrap();
        let mut other = table.clone();
        assert_eq!(other.insert(0), Ok(4));
        assert_eq!(other.points(), &points);
        let pairs = AllPairs::of(network.lend());
        assert_table(&table, &pairs, &[0, 0, 1, 0, 1, 1], 2);
        assert_table(&other, &pairs, &[1, 0, 1, 0, 1, 1], 2);
        assert_eq!(table.query(0, 1), Ok(&[2][..]));
    }
}

/// The refusals.
mod refusals {
    use super::*;

    #[test]
    fn are_the_numbers_1_to_12_and_14() {
        for (number, refusal) in (1..=12).chain([14]).zip(Refusal::ALL) {
            assert_eq!(refusal.number(), number);
            assert_eq!(Refusal::from_number(number), Some(refusal));
            let message = format!("refused by number {number}: {}", refusal.condition());
            assert_eq!(refusal.to_string(), message);
        }
        for number in [0, 13, 15, u32::MAX] {
            assert_eq!(Refusal::from_number(number), None);
        }
    }

    /// The column "Condition" of document 01's table of refusals, 10 with the length of Ask 5 and the
    /// array of Ask 4, 6 and 11 with the bounds of Ask 8, 6 with the arrays of Ask 1; 14 of Ask 7.
    #[test]
    fn have_the_wording_of_the_documents() {
        let conditions = [
            "starts has fewer than 2 or more than 65,536 entries",
            "starts doesn't begin with 0, falls, or doesn't end with A; neighbours and weights differ in length; A above 524,288",
            "a neighbour is n or more, is its own node, or doesn't rise strictly within a node",
            "a weight is 0 or above 65,535",
            "an arc lacks its return of equal weight",
            "points (or households, or sites) has not n entries, or a byte above 15",
            "a node given is n or more",
            "K not 2 to 17, or a table array not n × K long",
            "k is 0 or above 16; by table, above K - 1",
            "scratch shorter than S (eager, verify and the short query: than 12 × n), or an array for answers (eager: or the visits) shorter than n (nearest: than k)",
            "insert at 15 lockers; remove or verify at none",
            "eager: the expanded count would exceed the limit",
            "route: the list is empty or two nodes in sequence have no road",
        ];
        assert_eq!(Refusal::ALL.map(Refusal::condition), conditions);
    }
}
