//! A network that owns its arrays, and network N of document 01.

use overlap::calls::Network;
use overlap::Refusal;

/// A road between two nodes and its weight.
pub type Road = (u32, u32, u32);

/// An arc: its own node, the node that it leads to, and its weight.
pub type Arc = (u32, u32, u32);

/// Document 01, network N: "roads 0-1 of 4, 0-3 of 5, 1-2 of 3, 2-4 of 7, 3-4 of 3; node 5 alone".
pub const N_ROADS: [Road; 5] = [(0, 1, 4), (0, 3, 5), (1, 2, 3), (2, 4, 7), (3, 4, 3)];
/// Document 01, network N: "Six nodes".
pub const N_NODES: u32 = 6;
/// Document 01, network N: "points 2, 4, 5".
pub const N_POINTS: [u32; 3] = [2, 4, 5];

#[derive(Clone, Debug, Default, PartialEq, Eq)]
pub struct OwnedNetwork {
    pub starts: Vec<u32>,
    pub neighbours: Vec<u32>,
    pub weights: Vec<u32>,
}

impl OwnedNetwork {
    /// The network of n nodes that has each road as two arcs.
    pub fn from_roads(n: u32, roads: &[Road]) -> Self {
        let there = roads.iter().copied();
        let back = roads.iter().map(|&(a, b, weight)| (b, a, weight));
        Self::from_arcs(n, there.chain(back).collect())
    }

    /// The arrays of n nodes that have these arcs, ascending, whether or not they make roads. Each
    /// arc's own node is below n.
    pub fn from_arcs(n: u32, mut arcs: Vec<Arc>) -> Self {
        arcs.sort_unstable();
        let mut starts = vec![0; n as usize + 1];
        for &(from, _, _) in &arcs {
            starts[from as usize + 1] += 1;
        }
        for node in 0..n as usize {
            starts[node + 1] += starts[node];
        }
        Self {
            starts,
            neighbours: arcs.iter().map(|arc| arc.1).collect(),
            weights: arcs.iter().map(|arc| arc.2).collect(),
        }
    }

    /// Copies of three arrays of any contents.
    pub fn from_arrays(starts: &[u32], neighbours: &[u32], weights: &[u32]) -> Self {
        Self {
            starts: starts.to_vec(),
            neighbours: neighbours.to_vec(),
            weights: weights.to_vec(),
        }
    }

    pub fn lend(&self) -> Network<'_> {
        Network {
            starts: &self.starts,
            neighbours: &self.neighbours,
            weights: &self.weights,
        }
    }
}

/// The crate's own network of these arrays, or why they are refused.
pub fn accepted(arrays: &OwnedNetwork) -> Result<overlap::Network, Refusal> {
    let OwnedNetwork {
        starts,
        neighbours,
        weights,
    } = arrays.clone();
    overlap::Network::new(starts, neighbours, weights)
}

/// A network in words for the message of a failed test; of a large one the lengths alone.
pub fn shown(network: Network<'_>) -> String {
    let Network {
        starts,
        neighbours,
        weights,
    } = network;
    if starts.len() + neighbours.len() + weights.len() <= 1_000 {
        return format!("{network:?}");
    }
    let (nodes, arcs, weights) = (starts.len(), neighbours.len(), weights.len());
    format!("a network of {nodes} starts, {arcs} neighbours and {weights} weights")
}

/// Points in words for the message of a failed test; of many the number alone.
pub fn shown_points(points: &[u8]) -> String {
    if points.len() <= 100 {
        return format!("points {points:?}");
    }
    let lockers: usize = points.iter().map(|&byte| usize::from(byte)).sum();
    format!("{lockers} lockers on {} nodes", points.len())
}

pub fn network_n() -> OwnedNetwork {
    OwnedNetwork::from_roads(N_NODES, &N_ROADS)
}

/// The points array of n nodes with a locker for each time that a node is named, 15 at most.
pub fn marks(n: u32, points: &[u32]) -> Vec<u8> {
    let mut marks = vec![0; n as usize];
    for &point in points {
        let lockers = &mut marks[point as usize];
        *lockers = 15.min(*lockers + 1);
    }
    marks
}
