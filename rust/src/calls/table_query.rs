//! The table query: the points that list a site, by the table.

use super::{ffi, lend, Listing, Network, Table};

/// Document 01: "Table query (eager-M): the list, k from 1 to K - 1, since a point's row spends one
/// place on itself."
///
/// The list is the one that [`eager`](super::eager) gives for a limit that it keeps; this call has no
/// limit and counts nothing.
///
/// The answer is number 0 and the length of the list, with count 0, or the first condition met of 1
/// to 10. Scratch has at least [`scratch_len`](super::scratch_len)`(network, k)` entries of any
/// contents, and `answers` at least n.
///
/// "Insert, remove and table query don't test a lent table. On one that the check would deny, the
/// list (marked nodes, ascending) [...] are free": there it may even have a point on q. "Lists are
/// ascending by node." "An accepted call with scratch leaves it all zero. Answer arrays hold the
/// answer, then their old entries." "A refusal returns its number, count 0 and no, and changes no
/// buffer".
///
/// ```
/// use overlap::calls::{table_query, scratch_len, Network, Table, NONE};
///
/// # fn main() -> Result<(), overlap::Refusal> {
/// // Network N of document 01 and its table with K = 3.
/// let network = Network {
///     starts: &[0, 2, 4, 6, 8, 10, 10],
///     neighbours: &[1, 3, 0, 2, 1, 4, 0, 4, 2, 3],
///     weights: &[4, 5, 4, 3, 3, 7, 5, 3, 7, 3],
/// };
/// let points = [0, 0, 1, 0, 1, 1];
/// let table = Table {
///     places: 3,
///     ids: &[
///         2, 4, NONE, 2, 4, NONE, 2, 4, NONE, 4, 2, NONE, 4, 2, NONE, 5, NONE, NONE,
///     ],
///     distances: &[
///         7, 8, NONE, 3, 10, NONE, 0, 7, NONE, 3, 10, NONE, 0, 7, NONE, 0, NONE, NONE,
///     ],
/// };
/// let mut scratch = vec![0; scratch_len(network, 2)];
/// let mut answers = [0; 6];
///
/// let listing = table_query(network, &points, 0, 2, table, &mut scratch, &mut answers);
/// assert_eq!(answers[..listing.accepted()?.length], [2, 4]);
///
/// // k is at most K - 1.
/// let listing = table_query(network, &points, 0, 3, table, &mut scratch, &mut answers);
/// assert_eq!(listing.number, 9);
/// # Ok(())
/// # }
/// ```
pub fn table_query(
    network: Network<'_>,
    points: &[u8],
    q: u32,
    k: u32,
    table: Table<'_>,
    scratch: &mut [u32],
    answers: &mut [u32],
) -> Listing {
    // SAFETY: each pointer and length are those of one slice, lent for the whole call; the two that
    // the call writes are lent to it alone. It touches no word outside the slices. An empty slice
    // has a pointer that is not null.
    unsafe {
        lend!(ffi::overlap_table_query(
            ..network,
            &points,
            q,
            k,
            table.places,
            &table.ids,
            &table.distances,
            &mut scratch,
            &mut answers
        ))
    }
}
