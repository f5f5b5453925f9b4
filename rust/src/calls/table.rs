//! The table: the nearest points of each node.

use super::{ffi, lend, Network, Update, Verdict};

/// A table that a call reads.
///
/// Document 01: "Two arrays of n × K entries, ids and distances; K is 2 to 17. Row i starts in the
/// middle of each array, at i × K [...]. It holds the K nearest points of node i that can be
/// reached, by distance then node, i's own point first; the rest is NONE in both arrays." Document
/// 02 (Ask 8): "Rows and the nearest call repeat a node for each locker, and a row is still cut
/// after K places."
///
/// ```
/// use overlap::calls::{table_check, Network, Table, NONE};
///
/// // One node with a point, and K = 2.
/// let one_node = Network { starts: &[0, 0], neighbours: &[], weights: &[] };
/// let table = Table { places: 2, ids: &[0, NONE], distances: &[0, NONE] };
/// assert_eq!(table_check(one_node, &[1], table).accepted(), Ok(true));
/// ```
#[derive(Clone, Copy, Debug)]
pub struct Table<'a> {
    /// K, the places of a row.
    pub places: u32,
    /// The points of each row, each named by its node.
    pub ids: &'a [u32],
    /// The distance of each point from the row's node.
    pub distances: &'a [u32],
}

/// A table that a call writes: a [`Table`] of arrays lent for writing.
///
/// ```
/// use overlap::calls::{build, scratch_len, Network, TableMut, NONE};
///
/// // One node with a point, and K = 2.
/// let one_node = Network { starts: &[0, 0], neighbours: &[], weights: &[] };
/// let mut scratch = vec![0; scratch_len(one_node, 2)];
/// let (mut ids, mut distances) = ([7; 2], [7; 2]);
/// let table = TableMut { places: 2, ids: &mut ids, distances: &mut distances };
/// assert_eq!(build(one_node, &[1], &mut scratch, table), 0);
/// assert_eq!((ids, distances), ([0, NONE], [0, NONE]));
/// ```
#[derive(Debug)]
pub struct TableMut<'a> {
    /// K, the places of a row.
    pub places: u32,
    /// The points of each row, each named by its node.
    pub ids: &'a mut [u32],
    /// The distance of each point from the row's node.
    pub distances: &'a mut [u32],
}

/// Document 01: "Build fills it."
///
/// The answer is 0, or the first condition met of 1 to 6, 8 and 10. Scratch has at least
/// [`scratch_len`](super::scratch_len)`(network, K)` entries; it and both arrays of the table may
/// have any contents.
///
/// "An accepted call with scratch leaves it all zero." "A refusal [...] changes no buffer".
///
/// ```
/// use overlap::calls::{accepted, build, scratch_len, Network, TableMut, NONE};
///
/// # fn main() -> Result<(), overlap::Refusal> {
/// // Network N of document 01.
/// let network = Network {
///     starts: &[0, 2, 4, 6, 8, 10, 10],
///     neighbours: &[1, 3, 0, 2, 1, 4, 0, 4, 2, 3],
///     weights: &[4, 5, 4, 3, 3, 7, 5, 3, 7, 3],
/// };
/// let points = [0, 0, 1, 0, 1, 1];
/// let mut scratch = vec![0; scratch_len(network, 2)];
/// let (mut ids, mut distances) = ([0; 12], [0; 12]);
///
/// let table = TableMut { places: 2, ids: &mut ids, distances: &mut distances };
/// accepted(build(network, &points, &mut scratch, table))?;
/// // P8: the row of node 0.
/// assert_eq!((&ids[..2], &distances[..2]), (&[2, 4][..], &[7, 8][..]));
/// // P9: the row of node 5, which reaches no point but its own.
/// assert_eq!((&ids[10..], &distances[10..]), (&[5, NONE][..], &[0, NONE][..]));
///
/// // With three lockers on node 2, the row of node 0 has room for two of them.
/// let table = TableMut { places: 2, ids: &mut ids, distances: &mut distances };
/// accepted(build(network, &[0, 0, 3, 0, 1, 1], &mut scratch, table))?;
/// assert_eq!((&ids[..2], &distances[..2]), (&[2, 2][..], &[7, 7][..]));
/// # Ok(())
/// # }
/// ```
pub fn build(network: Network<'_>, points: &[u8], scratch: &mut [u32], table: TableMut<'_>) -> u32 {
    // SAFETY: each pointer and length are those of one slice, lent for the whole call; the three
    // that the call writes are lent to it alone. It touches no word outside the slices. An empty
    // slice has a pointer that is not null.
    unsafe {
        lend!(ffi::overlap_build(
            ..network,
            &points,
            table.places,
            &mut scratch,
            &mut table.ids,
            &mut table.distances
        ))
    }
}

/// Document 02 (Ask 8): "Insert adds one, remove takes one". Document 01: "each brings the table up
/// to date and returns the number of rows whose contents differ before and after."
///
/// The answer is number 0 and that number of rows, or the first condition met of 1 to 8, 10 and 11.
/// Scratch has at least [`scratch_len`](super::scratch_len)`(network, K)` entries of any contents.
///
/// "Insert, remove and table query don't test a lent table. On one that the check would deny, the
/// list [...], the changed count (at most n) and the table are free; the marks still change by the
/// rule." "An accepted call with scratch leaves it all zero." "A refusal [...] changes no buffer".
///
/// ```
/// use overlap::calls::{accepted, build, insert, scratch_len, Network, TableMut};
///
/// # fn main() -> Result<(), overlap::Refusal> {
/// // Network N of document 01.
/// let network = Network {
///     starts: &[0, 2, 4, 6, 8, 10, 10],
///     neighbours: &[1, 3, 0, 2, 1, 4, 0, 4, 2, 3],
///     weights: &[4, 5, 4, 3, 3, 7, 5, 3, 7, 3],
/// };
/// let mut points = [0, 0, 1, 0, 1, 1];
/// let mut scratch = vec![0; scratch_len(network, 2)];
/// let (mut ids, mut distances) = ([0; 12], [0; 12]);
/// let table = TableMut { places: 2, ids: &mut ids, distances: &mut distances };
/// accepted(build(network, &points, &mut scratch, table))?;
///
/// // P10: the row of node 2 after the insertion of 0; four rows change.
/// let table = TableMut { places: 2, ids: &mut ids, distances: &mut distances };
/// let changed = insert(network, &mut points, 0, &mut scratch, table).accepted()?;
/// assert_eq!(changed, 4);
/// assert_eq!(points, [1, 0, 1, 0, 1, 1]);
/// assert_eq!((&ids[4..6], &distances[4..6]), (&[2, 0][..], &[0, 7][..]));
///
/// // A second locker on node 0: only its own row still has room for it.
/// let table = TableMut { places: 2, ids: &mut ids, distances: &mut distances };
/// let changed = insert(network, &mut points, 0, &mut scratch, table).accepted()?;
/// assert_eq!((changed, points[0]), (1, 2));
/// assert_eq!((&ids[..2], &distances[..2]), (&[0, 0][..], &[0, 0][..]));
///
/// // A node with 15 lockers has no room for another.
/// let mut full = [15, 0, 1, 0, 1, 1];
/// let table = TableMut { places: 2, ids: &mut ids, distances: &mut distances };
/// assert_eq!(insert(network, &mut full, 0, &mut scratch, table).number, 11);
/// # Ok(())
/// # }
/// ```
pub fn insert(
    network: Network<'_>,
    points: &mut [u8],
    node: u32,
    scratch: &mut [u32],
    table: TableMut<'_>,
) -> Update {
    change(ffi::overlap_insert, network, points, node, scratch, table)
}

/// Lends all to a call that changes the table.
pub(crate) fn change(
    call: ffi::Change,
    network: Network<'_>,
    points: &mut [u8],
    node: u32,
    scratch: &mut [u32],
    table: TableMut<'_>,
) -> Update {
    // SAFETY: as for `build`; the call writes the points too, and they are lent to it alone.
    unsafe {
        lend!(call(
            ..network,
            &mut points,
            node,
            table.places,
            &mut scratch,
            &mut table.ids,
            &mut table.distances
        ))
    }
}

/// Document 01: "Table check: yes exactly when both arrays are the table that build would write,
/// whoever filled them."
///
/// The answer is number 0 with yes or no, or the first condition met of 1 to 6 and 8. "Both checks
/// have no scratch."
///
/// ```
/// use overlap::calls::{table_check, Network, Table, NONE};
///
/// # fn main() -> Result<(), overlap::Refusal> {
/// // Two nodes and one road of weight 4 between them; a point on node 1.
/// let network = Network { starts: &[0, 1, 2], neighbours: &[1, 0], weights: &[4, 4] };
/// let ids = [1, NONE, 1, NONE];
/// let table = Table { places: 2, ids: &ids, distances: &[4, NONE, 0, NONE] };
/// assert!(table_check(network, &[0, 1], table).accepted()?);
///
/// // The distance of the point from node 0 is 4.
/// let table = Table { distances: &[3, NONE, 0, NONE], ..table };
/// assert!(!table_check(network, &[0, 1], table).accepted()?);
///
/// // K is at least 2.
/// let table = Table { places: 1, ..table };
/// assert_eq!(table_check(network, &[0, 1], table).number, 8);
/// # Ok(())
/// # }
/// ```
pub fn table_check(network: Network<'_>, points: &[u8], table: Table<'_>) -> Verdict {
    // SAFETY: each pointer and length are those of one slice, lent for the whole call, which writes
    // none of them and touches no word outside of them. An empty slice has a pointer that is not
    // null.
    unsafe {
        lend!(ffi::overlap_table_check(
            ..network,
            &points,
            table.places,
            &table.ids,
            &table.distances
        ))
    }
}
