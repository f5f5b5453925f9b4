//! The verification of a point, compared with document 01.

mod common;

use common::all_pairs::AllPairs;
use common::call::{assert_lower_numbers_first, assert_outcome, assert_random_calls};
use common::call::{assert_refused, assert_scratch_lengths, Call, LEAST_OF_EACH};
use common::largest::{each, largest_grid, largest_star, longest_chain, several_on_each};
use common::largest::{LAST, MOST_NODES};
use common::lent::Lent;
use common::network::{marks, network_n, OwnedNetwork, N_NODES, N_POINTS};
use common::random::Random;
use common::rows::{relaxed_row, verify_in};
use common::shapes::{far_grid, try_all_small_points, weight_by_product};
use common::verify::{Asked, Verify};

/// Network N of document 01, by hand.
mod network_n {
    use super::*;

    fn call(p: u32, q: u32, k: u32) -> Verify {
        let points = marks(N_NODES, &N_POINTS);
        let seed = u64::from(p) + u64::from(q) + u64::from(k);
        Verify::exact(&network_n(), &points, (p, q, k), &mut Random::new(seed))
    }

    fn assert_verdict(call: Verify, yes: bool) {
        let outcome = call.accepted(yes);
        assert_outcome(call, &outcome);
    }

    /// The points that are listed for q and k, as P1 to P5 give them, verified one by one.
    #[test]
    fn the_lists_of_p1_to_p5() {
        for (q, k, listed) in [
            (0, 1, &[2][..]),
            (0, 2, &[2, 4]),
            (1, 1, &[2]),
            (2, 1, &[4]),
            (5, 1, &[]),
        ] {
            for p in N_POINTS {
                assert_verdict(call(p, q, k), listed.contains(&p));
            }
        }
    }

    /// P7: with the road 2-4 of 6, point 4 is nearer to 2 than site 0 is.
    #[test]
    fn nothing_is_listed_in_p7() {
        let roads = [(0, 1, 4), (0, 3, 5), (1, 2, 3), (2, 4, 6), (3, 4, 3)];
        let network = OwnedNetwork::from_roads(N_NODES, &roads);
        for p in N_POINTS {
            let mut call = call(p, 0, 1);
            call.network = network.clone();
            assert_verdict(call, false);
        }
    }

    /// "Equal distances: 4 is no nearer to 2 than site 0 is in P1."
    #[test]
    fn equal_distances_do_not_count() {
        assert_verdict(call(2, 0, 1), true);
        let mut turned = call(2, 4, 1);
        turned.points = marks(N_NODES, &[0, 2]);
        assert_verdict(turned, true);
    }

    /// "Verify of the point on q says no." Where there is none, 11 refuses as before.
    #[test]
    fn a_point_on_q_is_not_listed() {
        for k in 1..=16 {
            for p in N_POINTS {
                assert_verdict(call(p, p, k), false);
            }
            for p in [0, 1, 3] {
                assert_refused(call(p, p, k), 11);
            }
        }
    }

    #[test]
    fn a_point_that_cannot_be_reached_is_not_listed() {
        for k in 1..=16 {
            assert_verdict(call(5, 0, k), false);
            assert_verdict(call(2, 5, k), false);
        }
    }

    /// Of a point on another node, and of the point on q.
    #[test]
    fn each_condition_of_its_own() {
        let assert_number = |number, change: fn(&mut Verify)| {
            for q in [0, 2] {
                let mut call = call(2, q, 2);
                change(&mut call);
                assert_refused(call, number);
            }
        };
        assert_number(6, |c| c.points[3] = 16);
        assert_number(6, |c| c.points[2] = 255);
        assert_number(6, |c| c.points.truncate(5));
        assert_number(6, |c| c.points.push(1));
        assert_number(7, |c| c.p = 6);
        assert_number(7, |c| c.q = 6);
        assert_number(7, |c| c.p = u32::MAX);
        assert_number(7, |c| c.q = u32::MAX);
        assert_number(9, |c| c.k = 0);
        assert_number(9, |c| c.k = 17);
        assert_number(9, |c| c.k = u32::MAX);
        assert_number(11, |c| c.p = 0);
        assert_number(11, |c| c.points[2] = 0);
    }

    /// "Eager, verify and the short query shall work with 12 × n entries for every k."
    #[test]
    fn scratch_is_the_same_for_every_k() {
        let mut random = Random::new(0);
        for k in 1..=16 {
            for _ in 0..20 {
                assert_scratch_lengths(&call(2, 0, k), &mut random, |c| c.accepted(true));
                assert_scratch_lengths(&call(2, 2, k), &mut random, |c| c.accepted(false));
                // Node 3 has no locker.
                assert_scratch_lengths(&call(3, 0, k), &mut random, |c| c.refused(11));
            }
        }
    }
}

/// "Conditions are tried from 1 upward [...]; the first met is returned".
mod order {
    use super::*;

    #[test]
    fn two_conditions_give_the_lower_number() {
        assert_lower_numbers_first::<Verify>();
    }

    /// 9 comes before 10, and scratch is not looked at.
    #[test]
    fn a_wrong_k_comes_before_short_scratch() {
        let (mut random, points) = (Random::new(4), marks(N_NODES, &N_POINTS));
        for k in [0, 17, 18, 1 << 29, u32::MAX] {
            let call = Verify::exact(&network_n(), &points, (2, 0, k), &mut random);
            for length in [0, call.scratch.len() - 1, call.scratch.len()] {
                let mut call = call.clone();
                call.scratch = Lent::junk(length, &mut random);
                assert_refused(call, 9);
            }
        }
    }
}

/// Random networks, valid and damaged, against the plain calculation.
mod random {
    use super::*;

    #[test]
    fn engine_and_plain_calculation_agree() {
        let numbers = [0, 1, 2, 3, 4, 5, 6, 7, 9, 10, 11];
        let names = [
            "yes",
            "no, as q can't be reached",
            "no, as k others are nearer",
            "p on q",
            "p on q, with companions",
            "no, as companions are nearer",
            "yes, with companions",
            "yes, as equal distances don't count",
            "yes, as p doesn't count",
            "another answer from q",
        ];
        assert_random_calls::<Verify>(&numbers, &names).assert_each_k(LEAST_OF_EACH);
    }
}

/// All networks of up to four nodes with roads of weight 1 or 2, and 0 to 2 lockers on each node.
mod exhaustive {
    use super::*;

    /// Tries every p and q, also a p without a locker, and k from 1 to 3.
    fn try_points(network: &OwnedNetwork, points: &[u8], random: &mut Random) {
        let pairs = AllPairs::of(network.lend());
        for p in 0..points.len() as u32 {
            for q in 0..points.len() as u32 {
                for k in 1..=3 {
                    let call = Verify::exact(network, points, (p, q, k), random);
                    let outcome = match points[p as usize] {
                        0 => call.refused(11),
                        _ => call.accepted_by(&pairs),
                    };
                    assert_outcome(call, &outcome);
                }
            }
        }
    }

    #[test]
    fn up_to_four_nodes() {
        let mut random = Random::new(5);
        try_all_small_points(|network, points| try_points(network, points, &mut random));
    }
}

/// Networks at document 01's bounds.
mod limits {
    use super::*;

    fn assert_verdict(network: &OwnedNetwork, points: &[u8], asked: Asked, yes: bool) {
        let call = Verify::exact(network, points, asked, &mut Random::new(6));
        let outcome = call.accepted(yes);
        assert_outcome(call, &outcome);
    }

    #[test]
    fn the_ends_of_the_longest_chain() {
        let network = longest_chain();
        let alone = marks(MOST_NODES, &[0]);
        assert_verdict(&network, &alone, (0, LAST, 1), true);
        let ends = marks(MOST_NODES, &[0, LAST]);
        assert_verdict(&network, &ends, (0, LAST, 1), true);
        assert_verdict(&network, &ends, (LAST, 0, 1), true);
        let three = marks(MOST_NODES, &[0, LAST - 1, LAST]);
        assert_verdict(&network, &three, (0, LAST, 1), false);
        assert_verdict(&network, &three, (0, LAST, 2), true);
        assert_verdict(&network, &three, (0, LAST - 1, 1), true);
        // One of 15 lockers has 14 companions, and then one on the way.
        let mut full = three;
        full[0] = 15;
        assert_verdict(&network, &full, (0, LAST, 15), false);
        assert_verdict(&network, &full, (0, LAST, 16), true);
        assert_verdict(&network, &full, (0, LAST - 1, 14), false);
        assert_verdict(&network, &full, (0, LAST - 1, 15), true);
    }

    /// The other leaves are as far from a leaf as q is, and only the centre is nearer.
    #[test]
    fn a_star_of_the_most_nodes() {
        let centre = MOST_NODES / 2;
        let network = largest_star(centre);
        let mut points = vec![1; MOST_NODES as usize];
        assert_verdict(&network, &points, (LAST, 0, 1), false);
        assert_verdict(&network, &points, (LAST, 0, 2), true);
        assert_verdict(&network, &points, (LAST, centre, 1), true);
        points[centre as usize] = 0;
        assert_verdict(&network, &points, (LAST, 0, 1), true);
        assert_verdict(&network, &points, (0, LAST, 16), true);
    }

    #[test]
    fn one_node_without_a_road() {
        let network = OwnedNetwork::from_roads(1, &[]);
        for k in [1, 16] {
            for lockers in 1..=15 {
                assert_verdict(&network, &[lockers], (0, 0, k), false);
            }
            let call = Verify::exact(&network, &[0], (0, 0, k), &mut Random::new(7));
            assert_refused(call, 11);
        }
    }

    #[test]
    fn nodes_without_a_road_do_not_reach_each_other() {
        let network = OwnedNetwork::from_roads(MOST_NODES, &[]);
        let points = vec![1; MOST_NODES as usize];
        assert_verdict(&network, &points, (LAST, 0, 2), false);
        assert_verdict(&network, &points, (LAST, LAST, 1), false);
    }

    /// A long chain leads from p to a grid. The other points have distances above 2^31, where the
    /// expansion has come to the whole width of the grid.
    #[test]
    fn many_nodes_at_large_distances() {
        let (length, rows, columns) = (32_740, 160, 200);
        let n = length + rows * columns;
        let network = far_grid(length, rows, columns);
        let row = relaxed_row(network.lend(), 0);
        let is_far = |node: u32| row[node as usize] > Some(1 << 31);
        let is_point = |node| node == 0 || node % 50 == 0 && is_far(node);
        let points: Vec<u8> = (0..n).map(|node| u8::from(is_point(node))).collect();
        let mut far: Vec<u32> = (0..n).filter(|&node| is_far(node)).collect();
        far.sort_unstable_by_key(|&node| row[node as usize]);
        let mut verdicts = [0, 0];
        for (&q, k) in far.iter().step_by(25).zip([1, 2, 4].repeat(5)) {
            let yes = verify_in(&row, &points, 0, q, k);
            verdicts[usize::from(yes)] += 1;
            assert_verdict(&network, &points, (0, q, k), yes);
        }
        assert!(verdicts.iter().all(|&count| count > 0), "{verdicts:?}");
    }

    #[test]
    fn a_grid_of_255_by_257_nodes() {
        let network = largest_grid(weight_by_product);
        let p = 32_700;
        let row = relaxed_row(network.lend(), p);
        for (points, k) in [(each(100), 2), (several_on_each(100), 16)] {
            let mut verdicts = [0, 0];
            for q in (p - 60..=p + 60).step_by(5) {
                let yes = verify_in(&row, &points, p, q, k);
                verdicts[usize::from(yes)] += 1;
                assert_verdict(&network, &points, (p, q, k), yes);
            }
            assert!(verdicts.iter().all(|&count| count > 0), "{verdicts:?}");
        }
    }
}
