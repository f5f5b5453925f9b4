//! The network and its check.

use super::{ffi, lend};

/// Document 01: "Three lent arrays of 32-bit unsigned numbers: starts (n + 1 entries), neighbours
/// and weights (A entries each, A the number of arcs)."
///
/// Any contents are allowed here; [`network_check`] says whether they are a network.
///
/// ```
/// use overlap::calls::Network;
///
/// // Three nodes, the roads 0-1 of 4 and 1-2 of 3.
/// let network = Network {
///     starts: &[0, 1, 3, 4],
///     neighbours: &[1, 0, 2, 1],
///     weights: &[4, 4, 3, 3],
/// };
/// let arcs_of_node_1 = network.starts[1] as usize..network.starts[2] as usize;
/// assert_eq!(network.neighbours[arcs_of_node_1], [0, 2]);
/// ```
#[derive(Clone, Copy, Debug)]
pub struct Network<'a> {
    /// "The arcs of node i have the indices from `starts[i]` up to, not including,
    /// `starts[i + 1]`."
    pub starts: &'a [u32],
    /// The node that each arc leads to.
    pub neighbours: &'a [u32],
    /// The weight of each arc. "Each road is two arcs of equal weight."
    pub weights: &'a [u32],
}

/// Document 01: "Network check: the three network arrays alone; the answer is its number, 0 or
/// 1 to 5."
///
/// The number is 0 for an accepted network, else the first condition of the refusal table that is
/// met; [`meaning`](super::meaning) gives its wording. The call changes nothing.
///
/// ```
/// use overlap::calls::{network_check, Network};
///
/// let one_node = Network { starts: &[0, 0], neighbours: &[], weights: &[] };
/// assert_eq!(network_check(one_node), 0);
///
/// // The examples of document 01 for numbers 1 and 2.
/// assert_eq!(network_check(Network { starts: &[0], ..one_node }), 1);
/// assert_eq!(network_check(Network { starts: &[0, 2, 1], ..one_node }), 2);
/// ```
#[must_use]
pub fn network_check(network: Network<'_>) -> u32 {
    // SAFETY: each pointer and length are those of one slice, lent for the whole call; the call
    // reads no word outside them and writes nothing. An empty slice has a pointer that is not null.
    unsafe { lend!(ffi::overlap_network_check(..network)) }
}
