//! The verification of one point.

use super::{ffi, lend, Network, Verdict};

/// Document 01: "Verify: for a marked p and q, yes or no by the rule above."
///
/// The rule: "For query node q and k, point p is listed if it can be reached from q and fewer than
/// k other points p' have d(p, p') < d(p, q). The point p itself doesn't count." Document 02 (Ask 6):
/// "The lease edition now says that a point on q isn't listed." "Verify of the point on q says no."
/// (Ask 8): "Each counts, so a locker has its companions on the node as others at distance 0." p is
/// marked where it has a locker.
///
/// The answer is number 0 with yes or no, or the first condition met of 1 to 7 and 9 to 11. Document
/// 02 (Ask 5): "Eager, verify and the short query shall work with 12 × n entries for every k." So
/// scratch has at least [`eager_scratch_len`](super::eager_scratch_len)`(network)` entries of any
/// contents.
///
/// "An accepted call with scratch leaves it all zero." "A refusal returns its number, count 0 and
/// no, and changes no buffer".
///
/// ```
/// use overlap::calls::{eager_scratch_len, verify, Network};
///
/// # fn main() -> Result<(), overlap::Refusal> {
/// // Network N of document 01.
/// let network = Network {
///     starts: &[0, 2, 4, 6, 8, 10, 10],
///     neighbours: &[1, 3, 0, 2, 1, 4, 0, 4, 2, 3],
///     weights: &[4, 5, 4, 3, 3, 7, 5, 3, 7, 3],
/// };
/// let points = [0, 0, 1, 0, 1, 1];
/// let mut scratch = vec![0; eager_scratch_len(network)];
///
/// // "Equal distances: 4 is no nearer to 2 than site 0 is in P1."
/// assert!(verify(network, &points, 2, 0, 1, &mut scratch).accepted()?);
///
/// // Point 2 is nearer to 4 (7) than site 0 is (8): no for k = 1, yes for k = 2.
/// assert!(!verify(network, &points, 4, 0, 1, &mut scratch).accepted()?);
/// assert!(verify(network, &points, 4, 0, 2, &mut scratch).accepted()?);
///
/// // With two lockers on node 2, each has the other at distance 0: no for k = 1, yes for k = 2.
/// let two = [0, 0, 2, 0, 1, 1];
/// assert!(!verify(network, &two, 2, 0, 1, &mut scratch).accepted()?);
/// assert!(verify(network, &two, 2, 0, 2, &mut scratch).accepted()?);
///
/// // The point on q, for every k. That is an answer and no refusal.
/// for k in 1..=16 {
///     assert!(!verify(network, &points, 2, 2, k, &mut scratch).accepted()?);
/// }
///
/// // Node 3 has no locker, whether or not the site is on it.
/// for q in [0, 3] {
///     assert_eq!(verify(network, &points, 3, q, 1, &mut scratch).number, 11);
/// }
/// # Ok(())
/// # }
/// ```
pub fn verify(
    network: Network<'_>,
    points: &[u8],
    p: u32,
    q: u32,
    k: u32,
    scratch: &mut [u32],
) -> Verdict {
    // SAFETY: each pointer and length are those of one slice, lent for the whole call; scratch, the
    // one that the call writes, is lent to it alone. It touches no word outside the slices. An
    // empty slice has a pointer that is not null.
    unsafe {
        lend!(ffi::overlap_verify(
            ..network,
            &points,
            p,
            q,
            k,
            &mut scratch
        ))
    }
}
