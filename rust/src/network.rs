//! A network that the engine has accepted.

use crate::calls::{self, accepted, network_check};
use crate::Refusal;
use std::sync::Arc;

/// A road: its two nodes and its weight.
///
/// ```
/// let road: overlap::Road = (2, 4, 7);
/// assert!(overlap::Network::from_roads(5, &[road]).is_ok());
/// ```
pub type Road = (u32, u32, u32);

/// Junctions and roads.
///
/// Document 01: "Nodes (junctions) are 0 to n - 1. Three lent arrays of 32-bit unsigned numbers:
/// starts (n + 1 entries), neighbours and weights (A entries each, A the number of arcs). [...]
/// Each road is two arcs of equal weight. n is 1 to 65,535, A at most 524,288, a weight 1 to
/// 65,535."
///
/// A value of this type has passed the network check, so a call never refuses it. It does not
/// change, and a clone shares its arrays.
///
/// ```
/// use overlap::Network;
///
/// # fn main() -> Result<(), overlap::Refusal> {
/// // Network N of document 01.
/// let network = Network::from_roads(6, &[(0, 1, 4), (0, 3, 5), (1, 2, 3), (2, 4, 7), (3, 4, 3)])?;
/// assert_eq!(network.starts(), [0, 2, 4, 6, 8, 10, 10]);
/// # Ok(())
/// # }
/// ```
#[derive(Clone, Debug, PartialEq, Eq)]
pub struct Network {
    arrays: Arc<Arrays>,
}

#[derive(Debug, PartialEq, Eq)]
struct Arrays {
    starts: Vec<u32>,
    neighbours: Vec<u32>,
    weights: Vec<u32>,
}

impl Network {
    /// Document 01: "n is 1 to 65,535".
    ///
    /// ```
    /// use overlap::Network;
    ///
    /// assert!(Network::from_roads(Network::MOST_NODES, &[]).is_ok());
    /// assert!(Network::from_roads(Network::MOST_NODES + 1, &[]).is_err());
    /// ```
    pub const MOST_NODES: u32 = 65_535;
    /// Document 01: "A at most 524,288".
    ///
    /// ```
    /// assert_eq!(overlap::Network::MOST_ARCS, 524_288);
    /// ```
    pub const MOST_ARCS: usize = 524_288;
    /// Document 01: "a weight 1 to 65,535".
    ///
    /// ```
    /// use overlap::Network;
    ///
    /// assert!(Network::from_roads(2, &[(0, 1, Network::MOST_WEIGHT)]).is_ok());
    /// assert!(Network::from_roads(2, &[(0, 1, Network::MOST_WEIGHT + 1)]).is_err());
    /// ```
    pub const MOST_WEIGHT: u32 = 65_535;

    /// The network of three arrays.
    ///
    /// Document 01: "The arcs of node i have the indices from `starts[i]` up to, not including,
    /// `starts[i + 1]`." "Network check: the three network arrays alone; the answer is its number".
    ///
    /// ```
    /// use overlap::{Network, Refusal};
    ///
    /// // Two nodes and one road of weight 4 between them: the two arcs 0 to 1 and 1 to 0.
    /// let network = Network::new(vec![0, 1, 2], vec![1, 0], vec![4, 4]);
    /// assert!(network.is_ok());
    ///
    /// // The examples of document 01 for numbers 1, 2, 3 and 5.
    /// let refusal = |starts, neighbours, weights| Network::new(starts, neighbours, weights).err();
    /// assert_eq!(refusal(vec![0], vec![], vec![]), Some(Refusal::StartsLength));
    /// assert_eq!(refusal(vec![0, 2, 1], vec![1], vec![4]), Some(Refusal::Starts));
    /// assert_eq!(refusal(vec![0, 1, 2], vec![0, 0], vec![4, 4]), Some(Refusal::Neighbours));
    /// assert_eq!(refusal(vec![0, 1, 2], vec![1, 0], vec![4, 5]), Some(Refusal::Returns));
    /// ```
    ///
    /// # Errors
    ///
    /// The first condition met of 1 to 5.
    pub fn new(starts: Vec<u32>, neighbours: Vec<u32>, weights: Vec<u32>) -> Result<Self, Refusal> {
        let arrays = Arc::new(Arrays {
            starts,
            neighbours,
            weights,
        });
        let network = Self { arrays };
        accepted(network_check(network.lend()))?;
        Ok(network)
    }

    /// The network of so many nodes and these roads, in any order. Document 01: "Each road is two
    /// arcs of equal weight."
    ///
    /// ```
    /// use overlap::{Network, Refusal};
    ///
    /// let refusal = |nodes, road| Network::from_roads(nodes, &[(0, 1, 4), road]).err();
    /// assert_eq!(refusal(3, (2, 1, 5)), None);
    /// assert_eq!(refusal(0, (2, 1, 5)), Some(Refusal::StartsLength));
    /// assert_eq!(refusal(2, (2, 1, 5)), Some(Refusal::Neighbours));
    /// assert_eq!(refusal(3, (1, 0, 4)), Some(Refusal::Neighbours));
    /// assert_eq!(refusal(3, (2, 1, 65_536)), Some(Refusal::Weights));
    /// ```
    ///
    /// # Errors
    ///
    /// The number of the three arrays: 1 where there are no nodes or more than 65,535, 2 for more
    /// than 262,144 roads, 3 for a road to a node that is `nodes` or more, from a node to itself,
    /// or between two nodes that have one already, 4 for a weight of 0 or above 65,535.
    pub fn from_roads(nodes: u32, roads: &[Road]) -> Result<Self, Refusal> {
        // These three come first, as such roads can't be laid out in starts at all.
        if nodes == 0 || nodes > Self::MOST_NODES {
            return Err(Refusal::StartsLength);
        }
        if roads.len() > Self::MOST_ARCS / 2 {
            return Err(Refusal::Starts);
        }
        if roads.iter().any(|&(a, b, _)| a >= nodes || b >= nodes) {
            return Err(Refusal::Neighbours);
        }
        let there = roads.iter().copied();
        let back = roads.iter().map(|&(a, b, weight)| (b, a, weight));
        let mut arcs: Vec<Road> = there.chain(back).collect();
        arcs.sort_unstable();
        let starts = (0..=nodes).map(|node| arcs.partition_point(|arc| arc.0 < node) as u32);
        Self::new(
            starts.collect(),
            arcs.iter().map(|arc| arc.1).collect(),
            arcs.iter().map(|arc| arc.2).collect(),
        )
    }

    /// n, the number of nodes.
    ///
    /// ```
    /// # fn main() -> Result<(), overlap::Refusal> {
    /// assert_eq!(overlap::Network::from_roads(3, &[(0, 1, 4)])?.nodes(), 3);
    /// # Ok(())
    /// # }
    /// ```
    #[must_use]
    pub fn nodes(&self) -> u32 {
        self.starts().len() as u32 - 1
    }

    /// Document 01: "starts (n + 1 entries)".
    ///
    /// ```
    /// use overlap::Network;
    ///
    /// # fn main() -> Result<(), overlap::Refusal> {
    /// // Network N of document 01.
    /// let roads = [(0, 1, 4), (0, 3, 5), (1, 2, 3), (2, 4, 7), (3, 4, 3)];
    /// let network = Network::from_roads(6, &roads)?;
    /// assert_eq!(network.starts(), [0, 2, 4, 6, 8, 10, 10]);
    /// # Ok(())
    /// # }
    /// ```
    #[must_use]
    pub fn starts(&self) -> &[u32] {
        &self.arrays.starts
    }

    /// The node that each arc leads to.
    ///
    /// ```
    /// use overlap::Network;
    ///
    /// # fn main() -> Result<(), overlap::Refusal> {
    /// // Network N of document 01.
    /// let roads = [(0, 1, 4), (0, 3, 5), (1, 2, 3), (2, 4, 7), (3, 4, 3)];
    /// let network = Network::from_roads(6, &roads)?;
    /// assert_eq!(network.neighbours(), [1, 3, 0, 2, 1, 4, 0, 4, 2, 3]);
    /// # Ok(())
    /// # }
    /// ```
    #[must_use]
    pub fn neighbours(&self) -> &[u32] {
        &self.arrays.neighbours
    }

    /// The weight of each arc.
    ///
    /// ```
    /// use overlap::Network;
    ///
    /// # fn main() -> Result<(), overlap::Refusal> {
    /// // Network N of document 01.
    /// let roads = [(0, 1, 4), (0, 3, 5), (1, 2, 3), (2, 4, 7), (3, 4, 3)];
    /// let network = Network::from_roads(6, &roads)?;
    /// assert_eq!(network.weights(), [4, 5, 4, 3, 3, 7, 5, 3, 7, 3]);
    /// # Ok(())
    /// # }
    /// ```
    #[must_use]
    pub fn weights(&self) -> &[u32] {
        &self.arrays.weights
    }

    /// The neighbours of a node, ascending, each with the weight of the road to it.
    ///
    /// ```
    /// use overlap::{Network, Refusal};
    ///
    /// # fn main() -> Result<(), Refusal> {
    /// let network = Network::from_roads(3, &[(0, 1, 4), (1, 2, 3)])?;
    /// assert!(network.roads_of(1)?.eq([(0, 4), (2, 3)]));
    /// assert_eq!(network.roads_of(3).err(), Some(Refusal::Node));
    /// # Ok(())
    /// # }
    /// ```
    ///
    /// # Errors
    ///
    /// 7 where the node is n or more.
    pub fn roads_of(&self, node: u32) -> Result<impl Iterator<Item = (u32, u32)> + '_, Refusal> {
        if node >= self.nodes() {
            return Err(Refusal::Node);
        }
        let node = node as usize;
        let arcs = self.starts()[node] as usize..self.starts()[node + 1] as usize;
        Ok(arcs.map(|arc| (self.neighbours()[arc], self.weights()[arc])))
    }

    /// Each road once, its lower node first, ascending.
    ///
    /// ```
    /// use overlap::Network;
    ///
    /// # fn main() -> Result<(), overlap::Refusal> {
    /// let network = Network::from_roads(3, &[(2, 1, 3), (0, 1, 4)])?;
    /// assert!(network.roads().eq([(0, 1, 4), (1, 2, 3)]));
    /// # Ok(())
    /// # }
    /// ```
    pub fn roads(&self) -> impl Iterator<Item = Road> + '_ {
        let of_node = |a| {
            self.roads_of(a)
                .into_iter()
                .flatten()
                .map(move |(b, weight)| (a, b, weight))
        };
        (0..self.nodes())
            .flat_map(of_node)
            .filter(|&(a, b, _)| a < b)
    }

    /// S, the words of scratch that a call on this network needs, by [`calls::scratch_len`]; eager,
    /// verify and the short query need [`eager_scratch_len`](Self::eager_scratch_len).
    ///
    /// [`Engine`](crate::Engine) and [`Table`](crate::Table) keep scratch of this length
    /// themselves.
    ///
    /// ```
    /// # fn main() -> Result<(), overlap::Refusal> {
    /// // n = 3 and A = 4: 16 × 3 + 8 × (4 + 3) × 2.
    /// let network = overlap::Network::from_roads(3, &[(0, 1, 4), (1, 2, 3)])?;
    /// assert_eq!(network.scratch_len(2), 160);
    /// # Ok(())
    /// # }
    /// ```
    #[must_use]
    pub fn scratch_len(&self, m: u32) -> usize {
        calls::scratch_len(self.lend(), m as usize)
    }

    /// 12 × n, the words of scratch that eager, verify and the short query need on this network for
    /// every k, by [`calls::eager_scratch_len`].
    ///
    /// [`Engine`](crate::Engine) keeps scratch of this length itself.
    ///
    /// ```
    /// # fn main() -> Result<(), overlap::Refusal> {
    /// let network = overlap::Network::from_roads(3, &[(0, 1, 4), (1, 2, 3)])?;
    /// assert_eq!(network.eager_scratch_len(), 36);
    /// # Ok(())
    /// # }
    /// ```
    #[must_use]
    pub fn eager_scratch_len(&self) -> usize {
        calls::eager_scratch_len(self.lend())
    }

    /// The three arrays as the functions of [`calls`] are lent them.
    ///
    /// ```
    /// # fn main() -> Result<(), overlap::Refusal> {
    /// let network = overlap::Network::from_roads(2, &[(0, 1, 4)])?;
    /// assert_eq!(overlap::calls::network_check(network.lend()), 0);
    /// # Ok(())
    /// # }
    /// ```
    #[must_use]
    pub fn lend(&self) -> calls::Network<'_> {
        calls::Network {
            starts: self.starts(),
            neighbours: self.neighbours(),
            weights: self.weights(),
        }
    }
}
