//! How far lazy and lazy-EP go. The engine does not say which nodes it settles, so they are counted
//! by its twins in plain Rust, which are first compared with it.

mod common;
#[path = "../benches/plain/mod.rs"]
mod plain;

use common::call::Call;
use common::eager::Eager;
use common::largest::{each, largest_grid, MOST_NODES};
use common::lent::Lent;
use common::network::{marks, OwnedNetwork};
use common::random::Random;
use common::shapes::{chain, figure_12, random_network, weight_by_product, weighted};
use common::site::{SearchCall, Site};
use overlap::calls::{eager, lazy, lazy_ep, Listing};

/// A twin that also says how many nodes it settled.
type CountingCall = SearchCall<(Listing, usize)>;

/// Sees that engine and twin return the same and leave the same, eager in scratch of its own length.
fn assert_same(site: &Site) {
    let pairs: [(SearchCall, SearchCall); 2] = [(lazy, plain::lazy), (lazy_ep, plain::lazy_ep)];
    for (engine, twin) in pairs {
        let [mut is, mut wanted] = [site.clone(), site.clone()];
        let listing = is.run(engine);
        assert_eq!((listing.number, listing), (0, wanted.run(twin)));
        assert_left(is.arrays(), wanted.arrays());
    }
    let random = &mut Random::new(4);
    let mut is = Eager::of(site.for_eager(random), 65_535, random);
    let mut wanted = is.clone();
    let listing = is.run_by(eager);
    assert_eq!((listing.number, listing), (0, wanted.run_by(plain::eager)));
    assert_left(is.arrays(), wanted.arrays());
}

/// Sees that a call leaves what another leaves.
fn assert_left(is: Vec<(&str, &Lent)>, wanted: Vec<(&str, &Lent)>) {
    for ((name, is), (_, wanted)) in is.into_iter().zip(wanted) {
        assert_eq!(is.difference(wanted), None, "{name}");
    }
}

#[test]
fn engine_and_twins_agree() {
    for seed in 0..4_000 {
        let mut random = Random::new(seed);
        let network = random_network(&mut random);
        for _ in 0..4 {
            assert_same(&Site::random(&network, &mut random));
        }
    }
}

/// How many nodes a twin settles.
fn settled(twin: CountingCall, site: &Site) -> usize {
    site.clone().run(twin).1
}

/// "The verification of p1 will not prune any node. Thus, [...] lazy will continue with n4 possibly
/// reaching numerous nodes before termination." "The lazy-EP algorithm [...] avoids such cases".
#[test]
fn lazy_ep_stops_in_figure_12_where_lazy_goes_on() {
    for (k, line) in [(1, 60_000), (2, 60_000), (3, 2_000), (16, 2_000)] {
        let network = figure_12(k, line);
        let points: Vec<u32> = (1..=k).collect();
        let marked = marks(k + line + 3, &points);
        let site = Site::exact(&network, &marked, (0, k), &mut Random::new(1));
        assert_same(&site);
        let mut searched = site.clone();
        let listing = searched.run(lazy_ep);
        assert_eq!(searched.answers.part()[..listing.length], points);
        // All nodes; and all but n4 and the line.
        let nodes = site.points.len();
        assert_eq!(settled(plain::lazy_and_settled, &site), nodes);
        let before_n4 = k as usize + 2;
        assert_eq!(settled(plain::lazy_ep_and_settled, &site), before_n4);
    }
}

/// A site on node 0 with this k, and lockers on one other node.
fn site_with(network: &OwnedNetwork, (node, lockers): (usize, u8), k: u32) -> Site {
    let mut points = vec![0; network.starts.len() - 1];
    points[node] = lockers;
    let site = Site::exact(network, &points, (0, k), &mut Random::new(3));
    assert_same(&site);
    site
}

/// One n2 with k lockers stops lazy-EP in figure 12 as k nodes do; with one locker less it goes on.
#[test]
fn k_lockers_on_one_node_stop_lazy_ep() {
    let network = figure_12(1, 500);
    for k in [2, 3, 15] {
        let (full, short) = ((1, k), (1, k - 1));
        let site = site_with(&network, full, k.into());
        let nodes = site.points.len();
        assert_eq!(settled(plain::lazy_and_settled, &site), nodes);
        assert_eq!(settled(plain::lazy_ep_and_settled, &site), 3);
        let site = site_with(&network, short, k.into());
        assert_eq!(settled(plain::lazy_ep_and_settled, &site), nodes);
    }
}

/// On a chain, k lockers on node 10 are nearer to it than the site, so no search goes behind it; with
/// one locker less they do.
#[test]
fn k_lockers_on_one_node_stop_both_on_a_chain() {
    let network = weighted(500, &chain(500), |_, _| 1);
    let twins: [CountingCall; 2] = [plain::lazy_and_settled, plain::lazy_ep_and_settled];
    for k in [2, 3, 15] {
        for twin in twins {
            let site = site_with(&network, (10, k), k.into());
            assert_eq!(settled(twin, &site), 11);
            let site = site_with(&network, (10, k - 1), k.into());
            assert_eq!(settled(twin, &site), 500);
        }
    }
}

/// On a large grid with many points, which lazy settles nearly all of where k is above 1.
#[test]
fn lazy_ep_settles_a_small_part_of_a_grid() {
    let (network, points) = (largest_grid(weight_by_product), each(100));
    let site = Site::exact(&network, &points, (MOST_NODES / 2, 4), &mut Random::new(2));
    assert_same(&site);
    let by_lazy = settled(plain::lazy_and_settled, &site);
    let by_lazy_ep = settled(plain::lazy_ep_and_settled, &site);
    assert!(20 * by_lazy_ep < by_lazy, "{by_lazy_ep} and {by_lazy}");
}

#[test]
fn both_prune_on_random_networks() {
    let mut pruned = [0, 0];
    for seed in 0..2_000 {
        let mut random = Random::new(seed);
        let network = random_network(&mut random);
        let site = Site::random(&network, &mut random);
        let mut bare = site.clone();
        bare.points.fill(0);
        let reached = settled(plain::lazy_and_settled, &bare);
        let twins: [CountingCall; 2] = [plain::lazy_and_settled, plain::lazy_ep_and_settled];
        for (twin, pruned) in twins.into_iter().zip(&mut pruned) {
            *pruned += usize::from(settled(twin, &site) < reached);
        }
    }
    println!("{pruned:?} of 2,000 searches settle less than all that they reach");
    assert!(pruned.iter().all(|&count| count > 200), "{pruned:?}");
}
