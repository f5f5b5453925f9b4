//! Eager and the short query: the points that list a site.

use super::{ffi, lend, Listing, Network};

/// Document 01: "Eager (000, Fig. 4): expands outward from q, stops behind a node with k points
/// strictly nearer than q. It takes a 32-bit limit and returns the list and the count of nodes
/// expanded."
///
/// Document 02 (Ask 6): "The lease edition now says that a point on q isn't listed." (Ask 8): "A node
/// is listed once, as its lockers fare alike." Each locker of a node is a point that counts.
///
/// Document 02 (Ask 4): "Map editors step through an expansion and want the same steps on both
/// machines. Eager also lists the nodes that its count counts, by distance from the site and then by
/// node". They stand in the first `count` entries of `visits`, and the site comes first.
///
/// The answer is number 0, the length of the list and the count, or the first condition met of 1 to
/// 7, 9, 10 and 12. Document 02 (Ask 5): "Eager, verify and the short query shall work with 12 × n
/// entries for every k." So scratch has at least
/// [`eager_scratch_len`](super::eager_scratch_len)`(network)` entries of any contents, and `answers`
/// at least n. So has `visits`: "10 if the new list's array is shorter than n."
///
/// "Lists are ascending by node." "An accepted call with scratch leaves it all zero. Answer arrays
/// hold the answer, then their old entries." "A refusal returns its number, count 0 and no, and
/// changes no buffer; 12 alone leaves the scratch all zero."
///
/// ```
/// use overlap::calls::{eager, eager_scratch_len, Network};
///
/// # fn main() -> Result<(), overlap::Refusal> {
/// // Network N of document 01.
/// let network = Network {
///     starts: &[0, 2, 4, 6, 8, 10, 10],
///     neighbours: &[1, 3, 0, 2, 1, 4, 0, 4, 2, 3],
///     weights: &[4, 5, 4, 3, 3, 7, 5, 3, 7, 3],
/// };
/// let points = [0, 0, 1, 0, 1, 1];
/// let mut scratch = vec![0; eager_scratch_len(network)];
/// let (mut answers, mut visits) = ([0; 6], [0; 6]);
///
/// // P2. From node 0 it is 4 to node 1, 5 to node 3 and 7 to node 2.
/// let (s, a, v) = (&mut scratch[..], &mut answers[..], &mut visits[..]);
/// let listing = eager(network, &points, 0, 2, 4, s, a, v).accepted()?;
/// assert_eq!(a[..listing.length], [2, 4]);
/// assert_eq!(v[..listing.count as usize], [0, 1, 3, 2]);
///
/// // Four nodes are expanded, which is above 3.
/// let listing = eager(network, &points, 0, 2, 3, s, a, v);
/// assert_eq!((listing.number, listing.count), (12, 0));
///
/// // Without points all that can be reached is expanded. Nodes 0 and 4 are both 7 from node 2.
/// let listing = eager(network, &[0; 6], 2, 1, 6, s, a, v).accepted()?;
/// assert_eq!(v[..listing.count as usize], [2, 1, 0, 4, 3]);
///
/// // Five places for visits are fewer than n.
/// assert_eq!(eager(network, &points, 0, 2, 4, s, a, &mut v[..5]).number, 10);
/// # Ok(())
/// # }
/// ```
#[allow(clippy::too_many_arguments)] // They are those of `overlap_eager`.
pub fn eager(
    network: Network<'_>,
    points: &[u8],
    q: u32,
    k: u32,
    limit: u32,
    scratch: &mut [u32],
    answers: &mut [u32],
    visits: &mut [u32],
) -> Listing {
    // SAFETY: each pointer and length are those of one slice, lent for the whole call; those that
    // the call writes are lent to it alone. It touches no word outside the slices. An empty slice
    // has a pointer that is not null.
    unsafe {
        lend!(ffi::overlap_eager(
            ..network,
            &points,
            q,
            k,
            limit,
            &mut scratch,
            &mut answers,
            &mut visits
        ))
    }
}

/// Document 01: "The short query: no k and no limit; eager with [...] limit 65,535." Document 02 (Ask
/// 10): "The short query takes k = 2 from now on."
///
/// The answer and all that the call leaves are those of [`eager`], in as much scratch, but for the
/// visits. Document 02 (Ask 4): "Eager also lists the nodes that its count counts, [...]; the short
/// query doesn't." No condition 9 or 12 can be met. By a table the same list is
/// [`table_query`](super::table_query) with k = 2, which 9 lets pass where K is 3 or more.
///
/// ```
/// use overlap::calls::{eager_scratch_len, short_query, Network};
///
/// # fn main() -> Result<(), overlap::Refusal> {
/// // Network N of document 01.
/// let network = Network {
///     starts: &[0, 2, 4, 6, 8, 10, 10],
///     neighbours: &[1, 3, 0, 2, 1, 4, 0, 4, 2, 3],
///     weights: &[4, 5, 4, 3, 3, 7, 5, 3, 7, 3],
/// };
/// let mut scratch = vec![0; eager_scratch_len(network)];
/// let mut answers = [0; 6];
/// let points = [0, 0, 1, 0, 1, 1];
/// // "P1 as a short query gives 2, 4."
/// let listing = short_query(network, &points, 0, &mut scratch, &mut answers).accepted()?;
/// assert_eq!(answers[..listing.length], [2, 4]);
/// assert_eq!(listing.count, 4);
///
/// // For a site on node 2 the point there isn't listed.
/// let listing = short_query(network, &points, 2, &mut scratch, &mut answers).accepted()?;
/// assert_eq!(answers[..listing.length], [4]);
/// assert_eq!(listing.count, 5);
/// # Ok(())
/// # }
/// ```
pub fn short_query(
    network: Network<'_>,
    points: &[u8],
    q: u32,
    scratch: &mut [u32],
    answers: &mut [u32],
) -> Listing {
    // SAFETY: as for `eager`.
    unsafe {
        lend!(ffi::overlap_short_query(
            ..network,
            &points,
            q,
            &mut scratch,
            &mut answers
        ))
    }
}
