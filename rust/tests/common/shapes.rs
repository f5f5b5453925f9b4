//! Shapes of networks: lists of the pairs of nodes that a road joins, and random networks made of
//! them.

use super::network::OwnedNetwork;
use super::random::Random;
use std::collections::BTreeSet;

/// Two nodes that a road joins.
pub type Pair = (u32, u32);

/// The network of n nodes with these roads, each of the weight that the function gives it.
pub fn weighted(n: u32, pairs: &[Pair], mut weight: impl FnMut(u32, u32) -> u32) -> OwnedNetwork {
    let roads: Vec<_> = pairs.iter().map(|&(a, b)| (a, b, weight(a, b))).collect();
    OwnedNetwork::from_roads(n, &roads)
}

/// The weight 1 + (a × b mod 97).
pub fn weight_by_product(a: u32, b: u32) -> u32 {
    1 + (u64::from(a) * u64::from(b) % 97) as u32
}

pub fn chain(n: u32) -> Vec<Pair> {
    (1..n).map(|node| (node - 1, node)).collect()
}

/// A chain with its ends joined, from 3 nodes on.
pub fn ring(n: u32) -> Vec<Pair> {
    let mut pairs = chain(n);
    if n >= 3 {
        pairs.push((n - 1, 0));
    }
    pairs
}

pub fn star(n: u32, centre: u32) -> Vec<Pair> {
    let others = (0..n).filter(|&node| node != centre);
    others.map(|node| (centre, node)).collect()
}

pub fn complete(n: u32) -> Vec<Pair> {
    (0..n).flat_map(|b| (0..b).map(move |a| (a, b))).collect()
}

/// A grid whose nodes are numbered by rows.
pub fn grid(rows: u32, columns: u32) -> Vec<Pair> {
    let mut pairs = Vec::new();
    for node in 0..rows * columns {
        if node % columns + 1 < columns {
            pairs.push((node, node + 1));
        }
        if node / columns + 1 < rows {
            pairs.push((node, node + columns));
        }
    }
    pairs
}

/// A chain, and behind its last node a grid.
pub fn chain_and_grid(length: u32, rows: u32, columns: u32) -> Vec<Pair> {
    let mut pairs = chain(length + 1);
    let behind = |(a, b)| (a + length, b + length);
    pairs.extend(grid(rows, columns).into_iter().map(behind));
    pairs
}

/// A chain of the heaviest roads, and behind its last node a grid of all weights.
pub fn far_grid(length: u32, rows: u32, columns: u32) -> OwnedNetwork {
    let in_grid = |a, b| 1 + (u64::from(a) * u64::from(b) % 65_535) as u32;
    let weight = |a, b| if b <= length { 65_535 } else { in_grid(a, b) };
    let pairs = chain_and_grid(length, rows, columns);
    weighted(length + rows * columns, &pairs, weight)
}

/// 000, Fig. 12, for any k: the site is n1 = 0. Each of the k nodes n2 = 1 to k, on which the points
/// stand, has the roads n1-n2 of 1 and n2-n4 of 2; n3 = k + 1 has the roads n1-n3 of 3 and n3-n4 of
/// 1. Behind n4 = k + 2 is a line of so many nodes.
pub fn figure_12(k: u32, line: u32) -> OwnedNetwork {
    let (n3, n4) = (k + 1, k + 2);
    let mut roads = vec![(0, n3, 3), (n3, n4, 1)];
    for n2 in 1..=k {
        roads.extend([(0, n2, 1), (n2, n4, 2)]);
    }
    roads.extend((n4..n4 + line).map(|node| (node, node + 1, 1)));
    OwnedNetwork::from_roads(n4 + line + 1, &roads)
}

/// This many roads around a ring of n nodes: each node to the one 1 further, then each to the one 2
/// further, and so on. No step reaches n / 2, so no pair comes twice.
pub fn belt(n: u32, roads: u32) -> Vec<Pair> {
    assert!(roads.div_ceil(n) < n / 2);
    let pair = |road| (road % n, (road % n + road / n + 1) % n);
    (0..roads).map(pair).collect()
}

pub fn random_tree(n: u32, random: &mut Random) -> Vec<Pair> {
    let pair = |node| (random.below(node), node);
    (1..n).map(pair).collect()
}

/// At most `roads` random roads; a pair that comes again is left out.
pub fn random_pairs(n: u32, roads: u32, random: &mut Random) -> Vec<Pair> {
    let mut pairs = BTreeSet::new();
    for _ in 0..roads {
        let (a, b) = (random.below(n), random.below(n));
        if a != b {
            pairs.insert((a.min(b), a.max(b)));
        }
    }
    pairs.into_iter().collect()
}

/// Two random parts without a road between them, then nodes without any road.
pub fn random_parts(n: u32, random: &mut Random) -> Vec<Pair> {
    let first = random.between(1, n);
    let second = random.between(0, n - first);
    let mut pairs = random_tree(first, random);
    if second > 0 {
        let shift = |(a, b)| (a + first, b + first);
        pairs.extend(
            random_pairs(second, 2 * second, random)
                .into_iter()
                .map(shift),
        );
    }
    pairs
}

/// A valid network of 1 to 60 nodes, of any shape and any weights below.
pub fn random_network(random: &mut Random) -> OwnedNetwork {
    let most = random.pick(&[3, 8, 20, 60]);
    let n = random.between(1, most);
    random_network_of(n, random)
}

/// The same of n nodes, as a grid perhaps of fewer.
pub fn random_network_of(n: u32, random: &mut Random) -> OwnedNetwork {
    let (n, mut pairs) = random_shape(n, random);
    if random.once_in(2) {
        renumber(n, &mut pairs, random);
    }
    let heaviest = random.pick(&[1, 9, 65_535]);
    weighted(n, &pairs, |_, _| random_weight(heaviest, random))
}

/// The number of nodes, which is at most n, and the roads of a random shape.
fn random_shape(n: u32, random: &mut Random) -> (u32, Vec<Pair>) {
    match random.below(9) {
        0 => (n, chain(n)),
        1 => (n, ring(n)),
        2 => (n, star(n, random.below(n))),
        3 => (n, complete(n)),
        4 => (n, random_tree(n, random)),
        5 => (n, random_pairs(n, n, random)),
        6 => (n, random_pairs(n, 6 * n, random)),
        7 => (n, random_parts(n, random)),
        _ => random_grid(n, random),
    }
}

fn random_grid(n: u32, random: &mut Random) -> (u32, Vec<Pair>) {
    let columns = random.between(1, n);
    let rows = n / columns;
    (rows * columns, grid(rows, columns))
}

/// Gives the nodes other numbers.
fn renumber(n: u32, pairs: &mut [Pair], random: &mut Random) {
    let mut numbers: Vec<u32> = (0..n).collect();
    random.shuffle(&mut numbers);
    for (a, b) in pairs {
        *a = numbers[*a as usize];
        *b = numbers[*b as usize];
    }
}

/// A weight from 1 to the heaviest, which itself comes often.
fn random_weight(heaviest: u32, random: &mut Random) -> u32 {
    if random.once_in(8) {
        heaviest
    } else {
        random.between(1, heaviest)
    }
}

/// All networks of one to four nodes in which a pair of nodes has no road or one of weight 1 or 2.
pub fn all_small_networks() -> Vec<OwnedNetwork> {
    (1..=4).flat_map(all_networks_of).collect()
}

/// All networks of n nodes in which a pair of nodes has no road or one of weight 1 or 2.
fn all_networks_of(n: u32) -> Vec<OwnedNetwork> {
    let mut lists = vec![vec![]];
    for (a, b) in complete(n) {
        let with_weight = |list: &Vec<_>, weight| [&list[..], &[(a, b, weight)]].concat();
        let one = lists.iter().map(|list| with_weight(list, 1));
        let two = lists.iter().map(|list| with_weight(list, 2));
        lists = lists.iter().cloned().chain(one).chain(two).collect();
    }
    let network = |roads: &Vec<_>| OwnedNetwork::from_roads(n, roads);
    lists.iter().map(network).collect()
}

/// Tries all points of each of these networks that have 0, 1 or 2 lockers on a node, and of those of
/// up to three nodes 0, 1 or 15.
pub fn try_all_small_points(mut try_points: impl FnMut(&OwnedNetwork, &[u8])) {
    for network in all_small_networks() {
        let n = network.starts.len() as u32 - 1;
        let each_most: &[u8] = if n <= 3 { &[2, 15] } else { &[2] };
        for &most in each_most {
            for set in 0..3_u32.pow(n) {
                let digit = |p| [0, 1, most][(set / 3_u32.pow(p) % 3) as usize];
                try_points(&network, &(0..n).map(digit).collect::<Vec<u8>>());
            }
        }
    }
}
