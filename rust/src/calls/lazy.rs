//! Lazy and lazy-EP: the points that list a site, again.

use super::{ffi, lend, Listing, Network};

/// Document 01: "Lazy (000, 3.3) [...]: the list."
///
/// It expands outward from q and verifies each point that it comes to; the nodes that a
/// verification visits may be pruned. The list is the one that [`eager`](super::eager) gives for a
/// limit that it keeps; this call has no limit and counts nothing.
///
/// The answer is number 0 and the length of the list, with count 0, or the first condition met of 1
/// to 7, 9 and 10. Scratch has at least [`scratch_len`](super::scratch_len)`(network, k)` entries of
/// any contents, and `answers` at least n.
///
/// "Lists are ascending by node." "An accepted call with scratch leaves it all zero. Answer arrays
/// hold the answer, then their old entries." "A refusal returns its number, count 0 and no, and
/// changes no buffer".
///
/// ```
/// use overlap::calls::{lazy, scratch_len, Network};
///
/// # fn main() -> Result<(), overlap::Refusal> {
/// // Network N of document 01.
/// let network = Network {
///     starts: &[0, 2, 4, 6, 8, 10, 10],
///     neighbours: &[1, 3, 0, 2, 1, 4, 0, 4, 2, 3],
///     weights: &[4, 5, 4, 3, 3, 7, 5, 3, 7, 3],
/// };
/// let points = [0, 0, 1, 0, 1, 1];
/// let mut scratch = vec![0; scratch_len(network, 2)];
/// let mut answers = [0; 6];
///
/// let listing = lazy(network, &points, 0, 2, &mut scratch, &mut answers).accepted()?;
/// assert_eq!(answers[..listing.length], [2, 4]);
/// assert_eq!(listing.count, 0);
///
/// // k is 0.
/// assert_eq!(lazy(network, &points, 0, 0, &mut scratch, &mut answers).number, 9);
/// # Ok(())
/// # }
/// ```
pub fn lazy(
    network: Network<'_>,
    points: &[u8],
    q: u32,
    k: u32,
    scratch: &mut [u32],
    answers: &mut [u32],
) -> Listing {
    search(ffi::overlap_lazy, network, points, (q, k), scratch, answers)
}

/// Document 01: "[...] and lazy-EP (000, 4.2): the list."
///
/// Lazy with extended pruning: the points that it has come to are expanded too, as far as q has
/// been, and a node that k of them reach before q is pruned.
///
/// The answer and all that the call leaves are those of [`lazy`].
///
/// ```
/// use overlap::calls::{lazy_ep, scratch_len, Network};
///
/// # fn main() -> Result<(), overlap::Refusal> {
/// // Network N of document 01.
/// let network = Network {
///     starts: &[0, 2, 4, 6, 8, 10, 10],
///     neighbours: &[1, 3, 0, 2, 1, 4, 0, 4, 2, 3],
///     weights: &[4, 5, 4, 3, 3, 7, 5, 3, 7, 3],
/// };
/// let points = [0, 0, 1, 0, 1, 1];
/// let mut scratch = vec![0; scratch_len(network, 1)];
/// let mut answers = [0; 6];
///
/// // P4: the point on node 2 itself isn't listed.
/// let listing = lazy_ep(network, &points, 2, 1, &mut scratch, &mut answers).accepted()?;
/// assert_eq!(answers[..listing.length], [4]);
/// assert_eq!(listing.count, 0);
///
/// // Node 6 is none of N.
/// assert_eq!(lazy_ep(network, &points, 6, 1, &mut scratch, &mut answers).number, 7);
/// # Ok(())
/// # }
/// ```
pub fn lazy_ep(
    network: Network<'_>,
    points: &[u8],
    q: u32,
    k: u32,
    scratch: &mut [u32],
    answers: &mut [u32],
) -> Listing {
    search(
        ffi::overlap_lazy_ep,
        network,
        points,
        (q, k),
        scratch,
        answers,
    )
}

/// Lends all to one of the engine's two calls.
fn search(
    call: ffi::Search,
    network: Network<'_>,
    points: &[u8],
    (q, k): (u32, u32),
    scratch: &mut [u32],
    answers: &mut [u32],
) -> Listing {
    // SAFETY: as for `eager`.
    unsafe { lend!(call(..network, &points, q, k, &mut scratch, &mut answers)) }
}
