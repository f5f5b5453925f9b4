//! Networks at document 01's bounds, and points on them.

use super::network::OwnedNetwork;
use super::shapes::{belt, chain, complete, grid, star, weighted};

/// "n is 1 to 65,535".
pub const MOST_NODES: u32 = 65_535;
/// "A at most 524,288", and "Each road is two arcs".
pub const MOST_ROADS: u32 = 262_144;
/// The last of the most nodes.
pub const LAST: u32 = MOST_NODES - 1;

/// A chain of the most nodes and the heaviest roads.
pub fn longest_chain() -> OwnedNetwork {
    weighted(MOST_NODES, &chain(MOST_NODES), |_, _| 65_535)
}

/// A star of the most nodes and the heaviest roads.
pub fn largest_star(centre: u32) -> OwnedNetwork {
    weighted(MOST_NODES, &star(MOST_NODES, centre), |_, _| 65_535)
}

/// A grid of the most nodes, 255 × 257.
pub fn largest_grid(weight: impl FnMut(u32, u32) -> u32) -> OwnedNetwork {
    weighted(MOST_NODES, &grid(255, 257), weight)
}

/// The most nodes and the most roads.
pub fn most_roads(weight: impl FnMut(u32, u32) -> u32) -> OwnedNetwork {
    weighted(MOST_NODES, &belt(MOST_NODES, MOST_ROADS), weight)
}

/// The fewest nodes that the most roads can join: 725 × 724 / 2 is 262,450.
pub const DENSEST_NODES: u32 = 725;

/// The most roads on the fewest nodes: all pairs have one but 0 and 1, 2 and 3, and so on, as many as
/// there are too many.
pub fn densest(weight: impl FnMut(u32, u32) -> u32) -> OwnedNetwork {
    let mut pairs = complete(DENSEST_NODES);
    let too_many = pairs.len() as u32 - MOST_ROADS;
    pairs.retain(|&(a, b)| a % 2 == 1 || b != a + 1 || a / 2 >= too_many);
    weighted(DENSEST_NODES, &pairs, weight)
}

/// One to 15 lockers on each multiple of the step, of the most nodes.
pub fn several_on_each(step: u32) -> Vec<u8> {
    let lockers = |p| u32::from(p % step == 0) * (1 + p / step % 15);
    (0..MOST_NODES).map(|p| lockers(p) as u8).collect()
}

/// A point on each multiple of the step, of the most nodes.
pub fn each(step: u32) -> Vec<u8> {
    (0..MOST_NODES).map(|p| u8::from(p % step == 0)).collect()
}
