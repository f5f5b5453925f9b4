//! The networks on which calls are timed, the same in every run.

use super::calls::{Query, LONGEST_ROUTE};
use super::common::network::OwnedNetwork;
use super::common::random::Random;
use super::common::shapes::{grid, ring, weighted};
use super::common::walks::random_walk;
use super::roads::road_network;
use overlap::calls::{nearest, scratch_len, Found, NONE};
use std::collections::BTreeSet;

/// A network, its points, and a route from each site asked about, which is its first node.
pub struct Subject {
    pub name: &'static str,
    pub network: OwnedNetwork,
    pub points: Vec<u8>,
    routes: Vec<Vec<u32>>,
}

/// A point stands on one node in so many.
pub const NODES_TO_A_POINT: u32 = 100;
/// The sites of a network.
const SITES: usize = 16;
/// The largest weight of a grid.
const HEAVIEST: u32 = 100;
/// Document 01: "n is 1 to 65,535, A at most 524,288, a weight 1 to 65,535."
const MOST_NODES: u32 = 65_535;
const MOST_ROADS: usize = 262_144;

/// A square grid, numbered by rows, with random weights.
pub fn streets(side: u32) -> Subject {
    let mut random = Random::new(u64::from(side));
    let nodes = side * side;
    let pairs = grid(side, side);
    let network = weighted(nodes, &pairs, |_, _| random.between(1, HEAVIEST));
    Subject::new("grid", network, &mut random)
}

/// A random planar network whose weights are lengths.
pub fn roads(nodes: u32) -> Subject {
    let mut random = Random::new(2);
    let network = road_network(nodes, &mut random);
    Subject::new("road-like", network, &mut random)
}

/// The same with 1 to 15 lockers on each node that has any.
pub fn several(nodes: u32) -> Subject {
    let mut random = Random::new(4);
    let mut subject = roads(nodes);
    subject.name = "several lockers";
    for lockers in subject.points.iter_mut().filter(|lockers| **lockers > 0) {
        *lockers = random.between(1, 15) as u8;
    }
    subject
}

/// As many nodes and arcs as there may be, of any weights: a ring, and random roads across it.
pub fn limits() -> Subject {
    let mut random = Random::new(3);
    let sorted = |(a, b): (u32, u32)| (a.min(b), a.max(b));
    let mut pairs: BTreeSet<_> = ring(MOST_NODES).into_iter().map(sorted).collect();
    while pairs.len() < MOST_ROADS {
        let (a, b) = (random.below(MOST_NODES), random.below(MOST_NODES));
        if a != b {
            pairs.insert(sorted((a, b)));
        }
    }
    let pairs: Vec<_> = pairs.into_iter().collect();
    let network = weighted(MOST_NODES, &pairs, |_, _| random.between(1, 65_535));
    Subject::new("limits", network, &mut random)
}

impl Subject {
    /// Chooses points and sites by chance, and then the routes. A site is no point.
    fn new(name: &'static str, network: OwnedNetwork, random: &mut Random) -> Self {
        let nodes = network.starts.len() as u32 - 1;
        let mut order: Vec<u32> = (0..nodes).collect();
        random.shuffle(&mut order);
        let (marked, rest) = order.split_at((nodes / NODES_TO_A_POINT) as usize);
        let mut points = vec![0; nodes as usize];
        for &p in marked {
            points[p as usize] = 1;
        }
        let route = |&site| random_walk(&network, site, LONGEST_ROUTE, random);
        Self {
            name,
            routes: rest[..SITES].iter().map(route).collect(),
            network,
            points,
        }
    }

    pub fn nodes(&self) -> usize {
        self.points.len()
    }

    pub fn arcs(&self) -> usize {
        self.network.neighbours.len()
    }

    /// The nodes with lockers.
    pub fn marked(&self) -> usize {
        self.points.iter().filter(|&&lockers| lockers > 0).count()
    }

    pub fn lockers(&self) -> usize {
        self.points.iter().copied().map(usize::from).sum()
    }

    /// A query for each site, with the point that is nearest to it and a route that begins there.
    pub fn queries<'a>(&'a self, k: u32) -> Vec<Query<'a>> {
        let mut scratch = vec![0; scratch_len(self.network.lend(), 1)];
        let query = |route: &'a Vec<u32>| Query {
            site: route[0],
            point: self.nearest_point(route[0], &mut scratch),
            k,
            limit: MOST_NODES,
            route,
        };
        self.routes.iter().map(query).collect()
    }

    fn nearest_point(&self, site: u32, scratch: &mut [u32]) -> u32 {
        let (mut ids, mut distances) = ([0], [0]);
        let found = Found {
            ids: &mut ids,
            distances: &mut distances,
        };
        let network = self.network.lend();
        let listing = nearest(network, &self.points, site, NONE, 1, scratch, found);
        assert_eq!((listing.number, listing.length), (0, 1));
        ids[0]
    }
}
