//! Routes: walks over the roads of a network.

use super::network::OwnedNetwork;
use super::random::Random;

/// The neighbours of a node of an accepted network.
pub fn neighbours_of(network: &OwnedNetwork, node: u32) -> &[u32] {
    let node = node as usize;
    let arcs = network.starts[node] as usize..network.starts[node + 1] as usize;
    &network.neighbours[arcs]
}

/// A walk of so many nodes, each by chance one that a road leads to; of one node where that has no road.
pub fn random_walk(
    network: &OwnedNetwork,
    from: u32,
    length: usize,
    random: &mut Random,
) -> Vec<u32> {
    let (mut walk, mut at) = (vec![from], from);
    while walk.len() < length {
        let neighbours = neighbours_of(network, at);
        let Some(choice) = random.index(neighbours.len()) else {
            break;
        };
        at = neighbours[choice];
        walk.push(at);
    }
    walk
}

/// So many nodes to and fro over these, which are a walk of at least two.
pub fn to_and_fro(walk: &[u32], length: usize) -> Vec<u32> {
    let back = walk[1..walk.len() - 1].iter().rev();
    let nodes = walk.iter().chain(back).copied().cycle();
    nodes.take(length).collect()
}

/// A walk that comes to each node that can be reached from the first, deep first and back over the same
/// roads.
pub fn walk_through_all(network: &OwnedNetwork, from: u32) -> Vec<u32> {
    let mut is_met = vec![false; network.starts.len() - 1];
    is_met[from as usize] = true;
    let (mut walk, mut way) = (vec![from], vec![from]);
    while let Some(&at) = way.last() {
        let is_new = |node: &&u32| !is_met[**node as usize];
        match neighbours_of(network, at).iter().find(is_new) {
            Some(&node) => {
                is_met[node as usize] = true;
                way.push(node);
                walk.push(node);
            }
            None => {
                way.pop();
                walk.extend(way.last());
            }
        }
    }
    walk
}
