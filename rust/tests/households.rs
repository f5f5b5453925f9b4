//! The households that a site wins, compared with Ask 1 of document 02.

mod common;

use common::all_pairs::AllPairs;
use common::call::{assert_lower_numbers_first, assert_outcome, assert_random_calls};
use common::call::{assert_refused, assert_scratch_lengths, Call, LEAST_OF_EACH};
use common::households::Households;
use common::inputs::some_points;
use common::largest::{densest, each, largest_grid, largest_star, longest_chain};
use common::largest::{most_roads, several_on_each, DENSEST_NODES, LAST, MOST_NODES};
use common::lent::Lent;
use common::nearest_rows::NearestRows;
use common::network::{marks, network_n, OwnedNetwork, N_NODES, N_POINTS};
use common::random::Random;
use common::rows::relaxed_row;
use common::shapes::{try_all_small_points, weight_by_product};

/// A household, two, none, one, none and three.
const HOUSEHOLDS: [u8; 6] = [1, 2, 0, 1, 0, 3];

/// Sees that this is the list.
fn assert_list(call: Households, list: &[u32]) {
    let outcome = call.accepted(list);
    assert_outcome(call, &outcome);
}

/// Network N of document 01, by hand. The sites are its points, 2, 4 and 5.
mod network_n {
    use super::*;

    fn call(q: u32, k: u32) -> Households {
        call_against(&marks(N_NODES, &N_POINTS), q, k)
    }

    fn call_against(sites: &[u8], q: u32, k: u32) -> Households {
        let seed = u64::from(q) + u64::from(k);
        Households::exact(
            &network_n(),
            [&HOUSEHOLDS, sites],
            (q, k),
            &mut Random::new(seed),
        )
    }

    /// Node 1 has the site on 2 nearer than a new one on 0, node 3 that on 4.
    #[test]
    fn the_lists_of_all_nodes() {
        let of_1: [&[u32]; 6] = [&[0], &[0, 1], &[0, 1], &[0, 3], &[3], &[5]];
        for (q, list) in (0..).zip(of_1) {
            assert_list(call(q, 1), list);
        }
        for q in 0..5 {
            assert_list(call(q, 2), &[0, 1, 3]);
            assert_list(call(q, 16), &[0, 1, 3]);
        }
        assert_list(call(5, 2), &[5]);
    }

    /// Nodes 0 and 4 are both 7 from 2: a site on 4 is no nearer to it than one on 0, nor is that on 0
    /// nearer than one on 4.
    #[test]
    fn equal_distances_are_not_nearer() {
        let households = marks(N_NODES, &[2]);
        for (q, other) in [(0, 4), (4, 0)] {
            let sites = marks(N_NODES, &[other]);
            for k in [1, 2] {
                let mut call = call_against(&sites, q, k);
                call.lent.households.clone_from(&households);
                assert_list(call, &[2]);
            }
        }
    }

    /// "Households on a site's node in Ask 1 still belong to the site", whatever stands there besides.
    #[test]
    fn a_household_on_q_is_listed() {
        for sites in 0..=15 {
            let mut bytes = marks(N_NODES, &N_POINTS);
            bytes[0] = sites;
            assert_list(call_against(&bytes, 0, 1), &[0]);
        }
    }

    /// "Ask 1 counts households and sites": each site of a node is one.
    #[test]
    fn several_sites_on_a_node_count_each() {
        for (sites, list) in [(1, &[0, 1, 3][..]), (2, &[0, 3]), (15, &[0, 3])] {
            let bytes = [0, 0, sites, 0, 1, 1];
            assert_list(call_against(&bytes, 0, 2), list);
        }
        // Node 1 has the two on 2 nearer than a new one on 3.
        let bytes = [0, 0, 2, 0, 1, 1];
        assert_list(call_against(&bytes, 3, 3), &[0, 1, 3]);
        assert_list(call_against(&bytes, 3, 2), &[0, 3]);
    }

    #[test]
    fn without_households_the_list_is_empty() {
        for q in 0..N_NODES {
            let mut call = call(q, 1);
            call.lent.households = vec![0; 6];
            assert_list(call, &[]);
        }
    }

    #[test]
    fn without_sites_all_that_can_be_reached_is_listed() {
        for q in 0..5 {
            assert_list(call_against(&[0; 6], q, 1), &[0, 1, 3]);
        }
        assert_list(call_against(&[0; 6], 5, 1), &[5]);
    }

    #[test]
    fn each_condition_of_its_own() {
        let assert_number = |number, change: fn(&mut Households)| {
            let mut call = call(0, 2);
            change(&mut call);
            assert_refused(call, number);
        };
        assert_number(6, |c| c.lent.households[3] = 16);
        assert_number(6, |c| c.lent.households.truncate(5));
        assert_number(6, |c| c.lent.households.push(0));
        assert_number(6, |c| c.lent.households.clear());
        assert_number(6, |c| c.lent.sites[5] = 255);
        assert_number(6, |c| c.lent.sites.truncate(5));
        assert_number(6, |c| c.lent.sites.push(0));
        assert_number(6, |c| c.lent.sites.clear());
        assert_number(7, |c| c.q = 6);
        assert_number(7, |c| c.q = u32::MAX);
        assert_number(9, |c| c.k = 0);
        assert_number(9, |c| c.k = 17);
        assert_number(9, |c| c.k = u32::MAX);
        assert_number(10, |c| c.lent.answers = Lent::junk(5, &mut Random::new(0)));
    }

    /// "the m of 10 is this k".
    #[test]
    fn scratch_is_s_of_k() {
        let (mut random, pairs) = (Random::new(0), AllPairs::of(network_n().lend()));
        for k in 1..=16 {
            for _ in 0..20 {
                assert_scratch_lengths(&call(0, k), &mut random, |c| c.accepted_by(&pairs));
            }
        }
    }
}

/// "Conditions are tried from 1 upward [...]; the first met is returned".
mod order {
    use super::*;

    #[test]
    fn two_conditions_give_the_lower_number() {
        assert_lower_numbers_first::<Households>();
    }
}

/// Random networks, valid and damaged, against the plain calculation.
mod random {
    use super::*;

    #[test]
    fn engine_and_plain_calculation_agree() {
        let numbers = [0, 1, 2, 3, 4, 5, 6, 7, 9, 10];
        let tally = assert_random_calls::<Households>(&numbers, &Households::TALLIED);
        tally.assert_each_k(LEAST_OF_EACH);
    }
}

/// All networks of up to four nodes with roads of weight 1 or 2, and 0 to 2 sites on each node.
mod exhaustive {
    use super::*;

    /// Tries every q and k from 1 to 3, with a household on each node and with any.
    fn try_sites(network: &OwnedNetwork, sites: &[u8], random: &mut Random) {
        let (n, pairs) = (sites.len() as u32, AllPairs::of(network.lend()));
        for households in [vec![1; sites.len()], some_points(network, random)] {
            for asked in (0..n).flat_map(|q| [(q, 1), (q, 2), (q, 3)]) {
                let call = Households::exact(network, [&households, sites], asked, random);
                let outcome = call.accepted_by(&pairs);
                assert_outcome(call, &outcome);
            }
        }
    }

    #[test]
    fn up_to_four_nodes() {
        let mut random = Random::new(5);
        try_all_small_points(|network, sites| try_sites(network, sites, &mut random));
    }
}

/// Networks at document 01's bounds.
mod limits {
    use super::*;

    fn call(network: &OwnedNetwork, bytes: [&[u8]; 2], asked: (u32, u32)) -> Households {
        Households::exact(network, bytes, asked, &mut Random::new(6))
    }

    fn everywhere() -> Vec<u8> {
        each(1)
    }

    /// Sites at each thousandth node: q wins halfway to those beside it, both ends of its part included
    /// where they are as near to the next site. The last q has no site.
    #[test]
    fn the_longest_chain() {
        let (network, households, sites) = (longest_chain(), everywhere(), each(1_000));
        let parts = [
            (32_000, 31_500..=32_500),
            (0, 0..=500),
            (65_000, 64_500..=LAST),
            (MOST_NODES / 2, 32_384..=32_883),
        ];
        for (q, part) in parts {
            let list: Vec<u32> = part.collect();
            assert_list(call(&network, [&households, &sites], (q, 1)), &list);
        }
        // With k = 2 the site beside it counts no more, the one behind that does.
        let list: Vec<u32> = (31_000..=33_000).collect();
        assert_list(call(&network, [&households, &sites], (32_000, 2)), &list);
    }

    /// From a leaf only its own household is nearer to it than to the centre; the centre wins all
    /// leaves without a site.
    #[test]
    fn a_star_of_the_most_nodes() {
        let centre = 7;
        let (network, households) = (largest_star(centre), everywhere());
        let sites = marks(MOST_NODES, &[0, centre, LAST]);
        assert_list(call(&network, [&households, &sites], (LAST, 1)), &[LAST]);
        let list: Vec<u32> = (1..LAST).collect();
        assert_list(call(&network, [&households, &sites], (centre, 1)), &list);
        let list: Vec<u32> = (0..=LAST).collect();
        assert_list(call(&network, [&households, &sites], (centre, 2)), &list);
    }

    #[test]
    fn one_node_without_a_road() {
        let network = OwnedNetwork::from_roads(1, &[]);
        for k in [1, 16] {
            for sites in 0..=15 {
                assert_list(call(&network, [&[0], &[sites]], (0, k)), &[]);
                assert_list(call(&network, [&[15], &[sites]], (0, k)), &[0]);
            }
        }
    }

    #[test]
    fn a_grid_of_255_by_257_nodes() {
        let households = several_on_each(3);
        let network = largest_grid(weight_by_product);
        let middle = MOST_NODES / 2;
        assert_lists(
            &network,
            [&households, &each(100)],
            &[(middle, 1), (100, 4)],
        );
        let sites = several_on_each(100);
        assert_lists(
            &network,
            [&households, &sites],
            &[(middle, 16), (12_300, 16)],
        );
        let even = largest_grid(|_, _| 1);
        assert_lists(&even, [&households, &each(100)], &[(middle, 1), (100, 4)]);
    }

    #[test]
    fn the_most_arcs() {
        let households = several_on_each(3);
        for network in [most_roads(weight_by_product), most_roads(|_, _| 1)] {
            assert_eq!(network.neighbours.len(), 524_288);
            let asked = [(30_100, 1), (30_000, 2)];
            assert_lists(&network, [&households, &each(1_000)], &asked);
            let sites = several_on_each(1_000);
            assert_lists(&network, [&households, &sites], &[(12_345, 4)]);
        }
    }

    /// Where all roads are of weight 1, each node is 1 from q, which is 7, but q itself and node 6,
    /// which has no road to it and is 2 away. Of the 15 sites a node with one has that nearer, node 6
    /// has all.
    #[test]
    fn the_most_arcs_on_the_fewest_nodes() {
        let n = DENSEST_NODES as usize;
        let (households, sites) = (&everywhere()[..n], &each(50)[..n]);
        let (network, q) = (densest(|_, _| 1), 7);
        assert_eq!(network.neighbours.len(), 524_288);
        let but_6 = || (0..DENSEST_NODES).filter(|&h| h != 6);
        let list: Vec<u32> = but_6().filter(|h| h % 50 > 0).collect();
        assert_list(call(&network, [households, sites], (q, 1)), &list);
        let list: Vec<u32> = but_6().collect();
        assert_list(call(&network, [households, sites], (q, 2)), &list);
        assert_list(call(&network, [households, sites], (q, 15)), &list);
        let list: Vec<u32> = (0..DENSEST_NODES).collect();
        assert_list(call(&network, [households, sites], (q, 16)), &list);
        let (households, sites) = (&several_on_each(3)[..n], &several_on_each(50)[..n]);
        let asked = [(0, 1), (300, 4), (724, 4)];
        assert_lists(&densest(weight_by_product), [households, sites], &asked);
    }

    /// Sees that the list is what the nearest sites of each node say, for each q and k.
    fn assert_lists(network: &OwnedNetwork, bytes: [&[u8]; 2], asked: &[(u32, u32)]) {
        let most = asked.iter().map(|&(_, k)| k as usize).max().unwrap();
        let nearest = NearestRows::of(network.lend(), bytes[1], most);
        for &(q, k) in asked {
            let from_q = relaxed_row(network.lend(), q);
            let list = nearest.households(&from_q, bytes[0], k);
            assert!(list.len() > 1);
            assert_list(call(network, bytes, (q, k)), &list);
        }
    }
}
