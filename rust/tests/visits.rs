//! Eager's visits, compared with Ask 4 of document 02: "Map editors step through an expansion and
//! want the same steps on both machines. Eager also lists the nodes that its count counts, by
//! distance from the site and then by node; the short query doesn't."
//!
//! `eager.rs` compares them as well, with all else that eager leaves, and tries each number.

mod common;

use common::all_pairs::AllPairs;
use common::call::{assert_outcome, assert_refused, Call};
use common::eager::{has_ties, Eager, Short, SHORT_K};
use common::inputs::{enough, too_short};
use common::largest::{each, largest_grid, largest_star, several_on_each, MOST_NODES};
use common::lent::Lent;
use common::nearest_rows::NearestRows;
use common::network::OwnedNetwork;
use common::numbers::plain_scratch_len;
use common::random::Random;
use common::rows::{in_order, relaxed_row};
use common::shapes::{grid, random_network, star, weight_by_product, weighted};
use common::tally::Tally;
use overlap::calls::{distances, nearest, Found, NONE};

/// Shows a call on each of many random networks, with all distances. On every second network all
/// roads have one weight, so that many nodes are equally far.
fn try_random(mut see: impl FnMut(&Eager, &AllPairs, &mut Random)) {
    for seed in 0..4_000 {
        let mut random = Random::new(seed);
        let mut network = random_network(&mut random);
        if seed % 2 == 0 {
            network.weights.fill(random.pick(&[1, 2, 65_535]));
        }
        let pairs = AllPairs::of(network.lend());
        let call = Eager::random(&network, &pairs, &mut random);
        see(&call, &pairs, &mut random);
    }
}

/// Sees that the call is accepted and leaves what the plain calculation says.
fn assert_accepted(call: Eager, pairs: &AllPairs) {
    let outcome = call.accepted_by(pairs);
    assert_outcome(call, &outcome);
}

/// Runs a call that is accepted, and returns its visits.
fn steps(mut call: Eager) -> Vec<u32> {
    let listing = call.run();
    assert_eq!(listing.number, 0);
    call.visits.part()[..listing.count as usize].to_vec()
}

/// "10 if the new list's array is shorter than n."
mod lengths {
    use super::*;

    /// Just n places, and more: "Answer arrays hold the answer, then their old entries."
    #[test]
    fn n_places_and_more() {
        try_random(|call, pairs, random| {
            let n = call.site.nodes();
            for places in [n, n + 1, enough(n, random), n + 999] {
                assert_accepted(call.with_visits(places, random), pairs);
            }
        });
    }

    /// One place less, none, and any in between, whether or not the count is within the limit.
    #[test]
    fn fewer_than_n_places() {
        try_random(|call, pairs, random| {
            let n = call.site.nodes();
            for places in [n - 1, 0, too_short(n, random)] {
                let mut short = call.with_visits(places, random);
                assert_refused(short.clone(), 10);
                short.limit = random.below(call.site.expanded(pairs));
                assert_refused(short, 10);
            }
        });
    }

    /// The count is 1, and so many places are too few all the same.
    #[test]
    fn places_for_the_count_alone() {
        let network = weighted(60, &star(60, 0), |_, _| 1);
        let mut random = Random::new(1);
        let call = Eager::exact(&network, &[1; 60], (59, 1, 1), &mut random);
        assert_refused(call.with_visits(1, &mut random), 10);
        let outcome = call.accepted(&[0], &[59]);
        assert_outcome(call, &outcome);
    }
}

/// "12 alone leaves the scratch all zero", and the visits as they were.
mod limits_of_the_count {
    use super::*;

    #[test]
    fn every_one_below_the_count_refuses() {
        let mut refused = 0;
        try_random(|call, pairs, _| {
            let with_limit = |limit| Eager {
                limit,
                ..call.clone()
            };
            let count = call.site.expanded(pairs);
            for limit in 0..count {
                assert_refused(with_limit(limit), 12);
            }
            for limit in [count, count + 1] {
                assert_accepted(with_limit(limit), pairs);
            }
            refused += count;
        });
        assert!(refused >= 20_000, "{refused}");
    }
}

/// "Map editors [...] want the same steps on both machines."
mod same_steps {
    use super::*;

    /// The same question in other arrays: scratch, answers and visits of other lengths and contents,
    /// and another limit.
    fn on_another_machine(call: &Eager, count: u32, random: &mut Random) -> Eager {
        let mut other = call.clone();
        let least = call.least_scratch();
        let more = random.pick(&[0, 1, 60, 999]);
        other.site.scratch = Lent::junk(least + more, random);
        let n = call.site.nodes();
        other.site.answers = Lent::junk(enough(n, random), random);
        other.visits = Lent::junk(enough(n, random), random);
        other.limit = random.pick(&[count, count + 1, 65_535, u32::MAX]);
        other
    }

    fn assert_same(call: &Eager, random: &mut Random) {
        let visits = steps(call.clone());
        for _ in 0..4 {
            let other = on_another_machine(call, visits.len() as u32, random);
            assert_eq!(steps(other), visits, "{}", call.story());
        }
    }

    #[test]
    fn of_random_networks() {
        try_random(|call, _, random| assert_same(call, random));
    }

    #[test]
    fn of_a_grid_of_1_600_nodes() {
        let mut random = Random::new(2);
        for weight in [|_, _| 1, weight_by_product] {
            let network = weighted(1_600, &grid(40, 40), weight);
            for (step, k) in [(1_600, 2), (97, 3), (40, 16)] {
                let points = &each(step)[..1_600];
                let call = Eager::exact(&network, points, (820, k, 1_600), &mut random);
                assert_same(&call, &mut random);
            }
        }
    }

    /// Each call is lent its arrays as the last one left them.
    #[test]
    fn of_one_call_behind_another() {
        try_random(|call, pairs, random| {
            let mut call = call.clone();
            for q in 0..call.site.nodes() as u32 {
                call.site.q = q;
                call.limit = random.pick(&[65_535, u32::MAX]);
                assert_accepted(call.clone(), pairs);
                assert_eq!(call.run().number, 0);
            }
        });
    }
}

/// "by distance from the site and then by node", by the plain calculation and by other calls.
mod order {
    use super::*;

    const LATER: &str = "a tie whose smaller node is reached later";
    const TIES: &str = "visits at equal distances";
    const LOCKERS: &str = "equal distances and several lockers";

    /// Where in the visits the first one is from which a shortest way to m comes.
    fn reached(network: &OwnedNetwork, far: &[u32], visits: &[u32], m: u32) -> Option<usize> {
        let leads_to_m = |&v: &u32| {
            let (start, end) = (network.starts[v as usize], network.starts[v as usize + 1]);
            (start as usize..end as usize).any(|arc| {
                network.neighbours[arc] == m
                    && far[v as usize] + network.weights[arc] == far[m as usize]
            })
        };
        visits.iter().position(leads_to_m)
    }

    /// Whether two visits are equally far and the smaller comes into question later: a queue that
    /// hands out equal distances as they came in turns these two round.
    fn has_a_late_tie(network: &OwnedNetwork, far: &[u32], visits: &[u32]) -> bool {
        let place = |m| reached(network, far, visits, m);
        visits.windows(2).any(|two| {
            far[two[0] as usize] == far[two[1] as usize] && place(two[0]) > place(two[1])
        })
    }

    #[test]
    fn and_plain_calculation_agree() {
        let mut tally = Tally::default();
        try_random(|call, pairs, _| {
            let visits = steps(call.clone());
            assert_eq!(visits, call.site.visits(pairs), "{}", call.story());
            let (q, far) = (call.site.q, pairs.plain_distances(call.site.q));
            let ties = has_ties(pairs.row(q), &visits);
            let several = call.points().iter().any(|&lockers| lockers > 1);
            tally.add_if(ties, TIES);
            tally.add_if(ties && several, LOCKERS);
            let late = has_a_late_tie(call.network(), &far, &visits);
            tally.add_if(late, LATER);
        });
        tally.print();
        for name in [TIES, LOCKERS, LATER] {
            tally.assert_at_least(300, name);
        }
    }

    /// The distances of q, by the engine.
    fn distances_of(call: &Eager) -> Vec<u32> {
        let network = call.network().lend();
        let mut scratch = vec![7; plain_scratch_len(network, 1)];
        let mut far = vec![7; call.site.nodes()];
        assert_eq!(distances(network, call.site.q, &mut scratch, &mut far), 0);
        far
    }

    /// Whether m has fewer than k lockers strictly nearer than this bound, by the engine's nearest.
    fn is_counted(call: &Eager, m: u32, bound: u32) -> bool {
        let (network, k) = (call.network().lend(), call.site.k);
        let mut scratch = vec![7; plain_scratch_len(network, k)];
        let (mut ids, mut distances) = ([7; 16], [7; 16]);
        let found = Found {
            ids: &mut ids,
            distances: &mut distances,
        };
        let listing = nearest(network, call.points(), m, bound, k, &mut scratch, found);
        listing.accepted().unwrap().length < k as usize
    }

    /// Strictly rising by distance and node, the site first, and just the nodes that can be reached
    /// and "have fewer than k points p (one on m included) with d(m, p) < d(m, q)".
    #[test]
    fn and_other_calls_agree() {
        try_random(|call, _, _| {
            let (visits, far) = (steps(call.clone()), distances_of(call));
            let place = |m: u32| (far[m as usize], m);
            assert_eq!(visits[0], call.site.q);
            let rises = |two: &[u32]| place(two[0]) < place(two[1]);
            assert!(visits.windows(2).all(rises), "{}", call.story());
            for (m, &bound) in (0..).zip(&far) {
                let counted = bound != NONE && is_counted(call, m, bound);
                assert_eq!(visits.contains(&m), counted, "{m}, {}", call.story());
            }
        });
    }
}

/// "the short query doesn't": it is lent no array for visits.
mod short_query {
    use super::*;

    /// Its count is the number of eager's visits with its k, and it lists as eager does.
    #[test]
    fn lists_and_counts_alone() {
        try_random(|call, pairs, random| {
            let (network, points, q) = (call.network(), call.points(), call.site.q);
            let visits = steps(Eager::exact(network, points, (q, SHORT_K, 65_535), random));
            let short = Short::exact(network, points, q, random);
            let list = pairs.plain_listed(points, q, SHORT_K);
            let outcome = short.accepted(&list, visits.len() as u32);
            assert_outcome(short, &outcome);
        });
    }
}

/// Networks at document 01's bounds.
mod bounds {
    use super::*;

    const CENTRE: u32 = 40_000;

    /// Sees that a site has these visits in just n places, and is refused by one less of the limit.
    fn assert_visits(call: Eager, list: &[u32], visits: &[u32]) {
        let count = visits.len() as u32;
        let mut call = Eager {
            limit: count - 1,
            ..call
        };
        assert_refused(call.clone(), 12);
        call.limit = count;
        let outcome = call.accepted(list, visits);
        assert_outcome(call, &outcome);
    }

    fn all_from_the_centre(network: &OwnedNetwork) -> Eager {
        let none = vec![0; MOST_NODES as usize];
        Eager::exact(network, &none, (CENTRE, 16, 0), &mut Random::new(3))
    }

    /// All other nodes are equally far and wait at once; by hand, they come ascending.
    #[test]
    fn the_ends_of_the_largest_star() {
        let mut visits = vec![CENTRE];
        visits.extend((0..MOST_NODES).filter(|&m| m != CENTRE));
        assert_visits(all_from_the_centre(&largest_star(CENTRE)), &[], &visits);
    }

    /// All other nodes wait at once, some 3,000 at each distance.
    #[test]
    fn the_ends_of_a_star_with_20_weights() {
        let (pairs, mut random) = (star(MOST_NODES, CENTRE), Random::new(4));
        let network = weighted(MOST_NODES, &pairs, |_, _| random.between(1, 20));
        let far = relaxed_row(network.lend(), CENTRE);
        let visits = in_order(&far, 0..MOST_NODES);
        assert_visits(all_from_the_centre(&network), &[], &visits);
    }

    /// On a grid of one weight, whole rings around the site are equally far.
    #[test]
    fn a_grid_of_255_by_257_nodes_with_one_weight() {
        let (network, q) = (largest_grid(|_, _| 1), MOST_NODES / 2);
        let from_q = relaxed_row(network.lend(), q);
        for (points, k) in [(each(100), 4), (several_on_each(100), 16)] {
            let nearest = NearestRows::of(network.lend(), &points, k as usize + 1);
            let (list, visits) = (nearest.listed(&from_q, k), nearest.visits(&from_q, k));
            assert!(has_ties(&from_q, &visits) && !list.is_empty());
            let call = Eager::exact(&network, &points, (q, k, 0), &mut Random::new(5));
            assert_visits(call, &list, &visits);
        }
    }
}
