//! The lengths of the scratch.

use super::Network;

/// Document 01: "Scratch is a lent array of 32-bit numbers. Length S = 16 × n + 8 × (A + n) × m
/// entries; m is the k of a search, verify or nearest call [...], K for build, insert and remove, and 1
/// for distances." Document 02 (Ask 1): "For the list, k is 1 to 16; the m of 10 is this k, and 1 for
/// the sheet."
///
/// Eager, verify and the short query need less: [`eager_scratch_len`].
///
/// This is S for any arrays and any m, the largest `usize` where S is larger than that. n is one
/// less than the length of starts, or 0 where starts is empty; A is the length of neighbours.
///
/// ```
/// use overlap::calls::{scratch_len, Network};
///
/// // Three nodes, the roads 0-1 of 4 and 1-2 of 3: n = 3 and A = 4.
/// let network = Network {
///     starts: &[0, 1, 3, 4],
///     neighbours: &[1, 0, 2, 1],
///     weights: &[4, 4, 3, 3],
/// };
/// assert_eq!(scratch_len(network, 1), 16 * 3 + 8 * (4 + 3));
/// assert_eq!(scratch_len(network, 16), 16 * 3 + 8 * (4 + 3) * 16);
/// ```
#[must_use]
pub fn scratch_len(network: Network<'_>, m: usize) -> usize {
    let n = node_count(network);
    let arcs_and_nodes = network.neighbours.len().saturating_add(n);
    let by_m = arcs_and_nodes.saturating_mul(8).saturating_mul(m);
    n.saturating_mul(16).saturating_add(by_m)
}

/// Document 02 (Ask 5): "Eager, verify and the short query shall work with 12 × n entries for every
/// k." "10 compares with 12 × n for these."
///
/// This is 12 × n for any arrays, the largest `usize` where 12 × n is larger than that. n is as for
/// [`scratch_len`].
///
/// ```
/// use overlap::calls::{eager_scratch_len, scratch_len, Network};
///
/// // Three nodes, the roads 0-1 of 4 and 1-2 of 3.
/// let network = Network {
///     starts: &[0, 1, 3, 4],
///     neighbours: &[1, 0, 2, 1],
///     weights: &[4, 4, 3, 3],
/// };
/// assert_eq!(eager_scratch_len(network), 12 * 3);
///
/// // It is never more than S, so scratch for another call is long enough for these.
/// assert!(eager_scratch_len(network) <= scratch_len(network, 1));
/// ```
#[must_use]
pub fn eager_scratch_len(network: Network<'_>) -> usize {
    node_count(network).saturating_mul(12)
}

/// n of any arrays.
fn node_count(network: Network<'_>) -> usize {
    network.starts.len().saturating_sub(1)
}
