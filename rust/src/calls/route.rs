//! Routes: the points that list any stop on the way.

use super::{ffi, lend, Listing, Network};

/// Document 02 (Ask 7): "A van stop moves along a street, and clients want all lockers that any stop
/// would touch. The input is a list of nodes, each joined by a road to the one after it. Listed is the
/// union of what the single nodes receive, without the points that stand on the route itself."
///
/// What a single node receives is its list by [`eager`](super::eager). The route may come to a node
/// several times and be longer than n. (Ask 8): "A node is listed once, as its lockers fare alike."
///
/// The answer is number 0 and the length of the list, with count 0, or the first condition met of 1 to
/// 7, 9, 10 and 14. (Ask 7): "7 for each node of the list; 14, after 12, if the list is empty or two
/// nodes in sequence have no road." No node has a road to itself, so that none stands twice in sequence.
/// Scratch has at least [`scratch_len`](super::scratch_len)`(network, k)` entries of any contents, and
/// `answers` at least n.
///
/// Document 01: "Lists are ascending by node." "An accepted call with scratch leaves it all zero.
/// Answer arrays hold the answer, then their old entries." "A refusal returns its number, count 0 and
/// no, and changes no buffer".
///
/// ```
/// use overlap::calls::{route, scratch_len, Network};
///
/// # fn main() -> Result<(), overlap::Refusal> {
/// // Network N of document 01.
/// let network = Network {
///     starts: &[0, 2, 4, 6, 8, 10, 10],
///     neighbours: &[1, 3, 0, 2, 1, 4, 0, 4, 2, 3],
///     weights: &[4, 5, 4, 3, 3, 7, 5, 3, 7, 3],
/// };
/// let points = [0, 0, 1, 0, 1, 1];
/// let mut scratch = vec![0; scratch_len(network, 2)];
/// let mut answers = [0; 6];
/// let (s, a) = (&mut scratch[..], &mut answers[..]);
///
/// // For k = 1 a site on node 3 receives 4, one on 0 or 1 receives 2.
/// let listing = route(network, &points, &[3, 0, 1], 1, s, a).accepted()?;
/// assert_eq!(a[..listing.length], [2, 4]);
/// assert_eq!(listing.count, 0);
///
/// // One node: the list is eager's.
/// let listing = route(network, &points, &[0], 2, s, a).accepted()?;
/// assert_eq!(a[..listing.length], [2, 4]);
///
/// // Node 1 receives 2 and node 2 receives 4, but 2 stands on the route itself.
/// let listing = route(network, &points, &[1, 2, 1, 0], 1, s, a).accepted()?;
/// assert_eq!(a[..listing.length], [4]);
///
/// // No road joins 0 and 2, none leads from 0 to itself, and an empty list is no route.
/// for no_route in [&[0, 2][..], &[1, 0, 0], &[]] {
///     assert_eq!(route(network, &points, no_route, 1, s, a).number, 14);
/// }
/// // Node 6 is none of N.
/// assert_eq!(route(network, &points, &[0, 6], 1, s, a).number, 7);
/// # Ok(())
/// # }
/// ```
pub fn route(
    network: Network<'_>,
    points: &[u8],
    route: &[u32],
    k: u32,
    scratch: &mut [u32],
    answers: &mut [u32],
) -> Listing {
    // SAFETY: each pointer and length are those of one slice, lent for the whole call; the two that
    // the call writes are lent to it alone. It touches no word outside the slices. An empty slice
    // has a pointer that is not null.
    unsafe {
        lend!(ffi::overlap_route(
            ..network,
            &points,
            &route,
            k,
            &mut scratch,
            &mut answers
        ))
    }
}
