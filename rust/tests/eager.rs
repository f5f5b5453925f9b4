//! Eager and the short query, compared with document 01, eager's visits with Ask 4 of document 02, and
//! the short query's k with Ask 10.

mod common;

use common::all_pairs::AllPairs;
use common::call::{assert_lower_numbers_first, assert_outcome, assert_random_calls};
use common::call::{assert_refused, assert_scratch_lengths, Call, LEAST_OF_EACH};
use common::eager::{Asked, Eager, Short};
use common::largest::{each, largest_grid, largest_star, longest_chain, several_on_each};
use common::largest::{LAST, MOST_NODES};
use common::lent::Lent;
use common::nearest_rows::NearestRows;
use common::network::{marks, network_n, OwnedNetwork, N_NODES, N_POINTS};
use common::random::Random;
use common::rows::relaxed_row;
use common::shapes::{try_all_small_points, weight_by_product};
use common::site::Site;

/// Network N of document 01, by hand.
mod network_n {
    use super::*;

    fn call(q: u32, k: u32, limit: u32) -> Eager {
        let points = marks(N_NODES, &N_POINTS);
        let seed = u64::from(q) + u64::from(k);
        Eager::exact(&network_n(), &points, (q, k, limit), &mut Random::new(seed))
    }

    /// Sees that these are the list and the visits, and so many visits the count.
    fn assert_list(call: Eager, list: &[u32], visits: &[u32]) {
        let outcome = call.accepted(list, visits);
        assert_outcome(call, &outcome);
    }

    #[test]
    fn the_lists_and_visits_of_p1_to_p5() {
        for limit in [4, 65_535, u32::MAX] {
            assert_list(call(0, 1, limit), &[2], &[0]);
            assert_list(call(0, 2, limit), &[2, 4], &[0, 1, 3, 2]);
            assert_list(call(1, 1, limit), &[2], &[1, 0]);
            assert_list(call(2, 1, limit), &[4], &[2, 1, 0]);
            assert_list(call(5, 1, limit), &[], &[5]);
        }
    }

    /// P6, and another site for which nodes 0 and 4 are equally far, 7.
    #[test]
    fn without_points_all_nodes_reached_are_expanded() {
        for (q, visits) in [(0, [0, 1, 3, 2, 4]), (2, [2, 1, 0, 4, 3])] {
            let mut call = call(q, 1, 5);
            call.site.points = vec![0; 6];
            assert_list(call, &[], &visits);
        }
    }

    /// P7: with the road 2-4 of 6, point 4 is nearer to 2 than site 0 is.
    #[test]
    fn nothing_is_listed_in_p7() {
        let roads = [(0, 1, 4), (0, 3, 5), (1, 2, 3), (2, 4, 6), (3, 4, 3)];
        let mut call = call(0, 1, 65_535);
        call.site.network = OwnedNetwork::from_roads(N_NODES, &roads);
        assert_list(call, &[], &[0]);
    }

    /// "Limit 4 answers P2, limit 3 refuses." Limit 0 always refuses, as q itself is expanded.
    #[test]
    fn the_limit_of_p2() {
        assert_list(call(0, 2, 4), &[2, 4], &[0, 1, 3, 2]);
        for limit in 0..=3 {
            assert_refused(call(0, 2, limit), 12);
        }
        for q in 0..N_NODES {
            assert_refused(call(q, 1, 0), 12);
        }
    }

    #[test]
    fn each_condition_of_its_own() {
        let assert_number = |number, change: fn(&mut Eager)| {
            let mut call = call(0, 2, 4);
            change(&mut call);
            assert_refused(call, number);
        };
        assert_number(6, |c| c.site.points[3] = 16);
        assert_number(6, |c| c.site.points[5] = 255);
        assert_number(6, |c| c.site.points.truncate(5));
        assert_number(6, |c| c.site.points.push(0));
        assert_number(7, |c| c.site.q = 6);
        assert_number(7, |c| c.site.q = u32::MAX);
        assert_number(9, |c| c.site.k = 0);
        assert_number(9, |c| c.site.k = 17);
        assert_number(9, |c| c.site.k = u32::MAX);
        assert_number(10, |c| c.site.answers = Lent::junk(5, &mut Random::new(0)));
        assert_number(10, |c| c.visits = Lent::junk(5, &mut Random::new(0)));
        assert_number(12, |c| c.limit = 3);
    }

    /// "Eager, verify and the short query shall work with 12 × n entries for every k."
    #[test]
    fn scratch_is_the_same_for_every_k() {
        let (mut random, pairs) = (Random::new(0), AllPairs::of(network_n().lend()));
        for k in 1..=16 {
            for _ in 0..20 {
                let accepted = call(0, k, 65_535);
                assert_scratch_lengths(&accepted, &mut random, |c| c.accepted_by(&pairs));
                assert_scratch_lengths(&call(0, k, 0), &mut random, |c| c.refused(12));
            }
        }
    }

    /// "P1 as a short query gives 2, 4." So do sites 1 and 3; for 2 and 4, which are points themselves,
    /// the other one alone is listed.
    #[test]
    fn the_short_query_is_eager_with_k_2() {
        let (mut random, points) = (Random::new(0), marks(N_NODES, &N_POINTS));
        for (q, list, visits) in [
            (0, &[2, 4][..], &[0, 1, 3, 2][..]),
            (1, &[2, 4], &[1, 2, 0, 3]),
            (2, &[4], &[2, 1, 0, 4, 3]),
            (3, &[2, 4], &[3, 4, 0, 1]),
            (4, &[2], &[4, 3, 2, 0, 1]),
            (5, &[], &[5]),
        ] {
            assert_list(call(q, 2, 65_535), list, visits);
            let count = visits.len() as u32;
            let short = Short::exact(&network_n(), &points, q, &mut random);
            assert_scratch_lengths(&short, &mut random, |c| c.accepted(list, count));
        }
    }
}

/// "Conditions are tried from 1 upward [...]; the first met is returned".
mod order {
    use super::*;

    #[test]
    fn two_conditions_give_the_lower_number() {
        assert_lower_numbers_first::<Eager>();
    }

    #[test]
    fn two_conditions_give_the_lower_number_of_the_short_query() {
        assert_lower_numbers_first::<Short>();
    }
}

/// Random networks, valid and damaged, against the plain calculation.
mod random {
    use super::*;

    #[test]
    fn engine_and_plain_calculation_agree() {
        let numbers = [0, 1, 2, 3, 4, 5, 6, 7, 9, 10, 12];
        let names = [&Site::TALLIED[..], &Eager::TALLIED].concat();
        assert_random_calls::<Eager>(&numbers, &names).assert_each_k(LEAST_OF_EACH);
    }

    #[test]
    fn short_query_and_plain_calculation_agree() {
        let names = [&Site::TALLIED[..], &Short::TALLIED].concat();
        assert_random_calls::<Short>(&[0, 1, 2, 3, 4, 5, 6, 7, 10], &names);
    }
}

/// All networks of up to four nodes with roads of weight 1 or 2, and 0 to 2 lockers on each node.
mod exhaustive {
    use super::*;

    /// Tries every q, k from 1 to 3 and limits from 0 to all nodes.
    fn try_points(network: &OwnedNetwork, points: &[u8], random: &mut Random) {
        let (n, pairs) = (points.len() as u32, AllPairs::of(network.lend()));
        for q in 0..n {
            for k in 1..=3 {
                let expanded = pairs.plain_expanded(points, q, k);
                for limit in 0..=n {
                    let call = Eager::exact(network, points, (q, k, limit), random);
                    let outcome = match expanded > limit {
                        true => call.refused(12),
                        false => call.accepted_by(&pairs),
                    };
                    assert_outcome(call, &outcome);
                }
            }
        }
    }

    #[test]
    fn up_to_four_nodes() {
        let mut random = Random::new(5);
        try_all_small_points(|network, points| try_points(network, points, &mut random));
    }
}

/// Networks at document 01's bounds.
mod limits {
    use super::*;

    fn assert_list(
        network: &OwnedNetwork,
        points: &[u8],
        asked: Asked,
        (list, visits): (&[u32], &[u32]),
    ) {
        let call = Eager::exact(network, points, asked, &mut Random::new(6));
        let outcome = call.accepted(list, visits);
        assert_outcome(call, &outcome);
    }

    /// Points at each thousandth node. The expanded nodes reach halfway to the points beside q, from
    /// 32,384 to 32,883, and those on both sides of q are equally far.
    #[test]
    fn the_middle_of_the_longest_chain() {
        let network = longest_chain();
        let points = each(1_000);
        let q = MOST_NODES / 2;
        let mut visits = vec![q];
        visits.extend((1..=383).flat_map(|far| [q - far, q + far]));
        visits.retain(|&m| m <= 32_883);
        assert_eq!(visits.len(), 500);
        let listed = (&[32_000, 33_000][..], &visits[..]);
        assert_list(&network, &points, (q, 1, 500), listed);
        let call = Eager::exact(&network, &points, (q, 1, 499), &mut Random::new(7));
        assert_refused(call, 12);
    }

    /// Each leaf has the centre nearer than q, which is another leaf.
    #[test]
    fn a_star_of_the_most_nodes() {
        let centre = 7;
        let network = largest_star(centre);
        let points = marks(MOST_NODES, &[0, centre, LAST]);
        assert_list(&network, &points, (LAST, 1, 1), (&[centre], &[LAST]));
        let call = Eager::exact(&network, &points, (LAST, 1, 0), &mut Random::new(7));
        assert_refused(call, 12);
    }

    #[test]
    fn one_node_without_a_road() {
        let network = OwnedNetwork::from_roads(1, &[]);
        for k in [1, 16] {
            for lockers in 0..=15 {
                assert_list(&network, &[lockers], (0, k, 1), (&[], &[0]));
            }
        }
    }

    #[test]
    fn a_grid_of_255_by_257_nodes() {
        let network = largest_grid(weight_by_product);
        assert_lists(&network, &each(100), &[(MOST_NODES / 2, 1), (100, 4)]);
        assert_lists(
            &network,
            &several_on_each(100),
            &[(MOST_NODES / 2, 16), (12_300, 16)],
        );
    }

    /// Sees that the list and the visits are what the nearest points of each node say, for each q
    /// and k.
    fn assert_lists(network: &OwnedNetwork, points: &[u8], asked: &[(u32, u32)]) {
        let most = asked.iter().map(|&(_, k)| k as usize + 1).max().unwrap();
        let nearest = NearestRows::of(network.lend(), points, most);
        for &(q, k) in asked {
            let from_q = relaxed_row(network.lend(), q);
            let (list, visits) = (nearest.listed(&from_q, k), nearest.visits(&from_q, k));
            let count = visits.len() as u32;
            assert!(list.len() > 1);
            assert_list(network, points, (q, k, count), (&list, &visits));
            let asked = (q, k, count - 1);
            let call = Eager::exact(network, points, asked, &mut Random::new(8));
            assert_refused(call, 12);
        }
    }
}
