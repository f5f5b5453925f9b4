//! The nearest points of a node.

use super::{ffi, lend, Listing, Network};

/// The arrays in which [`nearest`] puts its answer. Document 01: "ids and distances in two arrays".
///
/// ```
/// use overlap::calls::{nearest, scratch_len, Found, Network, NONE};
///
/// // One node with a point, and k = 1.
/// let one_node = Network { starts: &[0, 0], neighbours: &[], weights: &[] };
/// let mut scratch = vec![0; scratch_len(one_node, 1)];
/// let (mut ids, mut distances) = ([NONE], [NONE]);
/// let found = Found { ids: &mut ids, distances: &mut distances };
/// assert_eq!(nearest(one_node, &[1], 0, NONE, 1, &mut scratch, found).length, 1);
/// assert_eq!((ids, distances), ([0], [0]));
/// ```
#[derive(Debug)]
pub struct Found<'a> {
    /// The points, each named by its node; a node with several lockers comes as often.
    pub ids: &'a mut [u32],
    /// The distance of each point.
    pub distances: &'a mut [u32],
}

/// Document 01: "Nearest: the points p with d(node, p) < e, e any 32-bit number, by distance then
/// node, cut after the first k; ids and distances in two arrays."
///
/// Document 02 (Ask 8): "A point byte becomes the number of lockers there, 0 to 15." "Rows and the
/// nearest call repeat a node for each locker". A point on the node itself has distance 0. With e =
/// [`NONE`](super::NONE) all points that can be reached come into question.
///
/// The answer is number 0 and the length of the list, or the first condition met of 1 to 7, 9 and
/// 10. Scratch has at least [`scratch_len`](super::scratch_len)`(network, k)` entries of any
/// contents, and both arrays of `found` have at least k.
///
/// "An accepted call with scratch leaves it all zero. Answer arrays hold the answer, then their old
/// entries." "A refusal returns its number, count 0 and no, and changes no buffer".
///
/// ```
/// use overlap::calls::{nearest, scratch_len, Found, Network, NONE};
///
/// # fn main() -> Result<(), overlap::Refusal> {
/// // Network N of document 01.
/// let network = Network {
///     starts: &[0, 2, 4, 6, 8, 10, 10],
///     neighbours: &[1, 3, 0, 2, 1, 4, 0, 4, 2, 3],
///     weights: &[4, 5, 4, 3, 3, 7, 5, 3, 7, 3],
/// };
/// let points = [0, 0, 1, 0, 1, 1];
/// let mut scratch = vec![0; scratch_len(network, 2)];
/// let (mut ids, mut distances) = ([0; 2], [0; 2]);
///
/// let found = Found { ids: &mut ids, distances: &mut distances };
/// let listing = nearest(network, &points, 0, NONE, 2, &mut scratch, found).accepted()?;
/// assert_eq!(listing.length, 2);
/// assert_eq!((ids, distances), ([2, 4], [7, 8]));
///
/// // Point 4 has distance 8, which is not below 8.
/// let found = Found { ids: &mut ids, distances: &mut distances };
/// let listing = nearest(network, &points, 0, 8, 2, &mut scratch, found).accepted()?;
/// assert_eq!(listing.length, 1);
///
/// // With three lockers on node 2 there is room for two of them.
/// let found = Found { ids: &mut ids, distances: &mut distances };
/// let three = [0, 0, 3, 0, 1, 1];
/// let listing = nearest(network, &three, 0, NONE, 2, &mut scratch, found).accepted()?;
/// assert_eq!(listing.length, 2);
/// assert_eq!((ids, distances), ([2, 2], [7, 7]));
///
/// // No k is above 16.
/// let found = Found { ids: &mut ids, distances: &mut distances };
/// assert_eq!(nearest(network, &points, 0, NONE, 17, &mut scratch, found).number, 9);
/// # Ok(())
/// # }
/// ```
pub fn nearest(
    network: Network<'_>,
    points: &[u8],
    node: u32,
    e: u32,
    k: u32,
    scratch: &mut [u32],
    found: Found<'_>,
) -> Listing {
    // SAFETY: each pointer and length are those of one slice, lent for the whole call; the three
    // that the call writes are lent to it alone. It touches no word outside the slices. An empty
    // slice has a pointer that is not null.
    unsafe {
        lend!(ffi::overlap_nearest(
            ..network,
            &points,
            node,
            e,
            k,
            &mut scratch,
            &mut found.ids,
            &mut found.distances
        ))
    }
}
