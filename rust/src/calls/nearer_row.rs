//! Of an own table and a rival's, the row whose first entry is nearer.

use super::{ffi, lend, Network, RowPart};
use crate::Refusal;

/// An own table and a rival's, which a call reads. Both have one K.
///
/// Each is as [`Table`](super::Table) says, and its contents are not tested: they may be anything.
///
/// ```
/// use overlap::calls::{nearer_row, Network, TwoTables, NONE};
///
/// // One node and K = 2. The own table has no point, the rival's has one on the node.
/// let one_node = Network { starts: &[0, 0], neighbours: &[], weights: &[] };
/// let tables = TwoTables {
///     places: 2,
///     own_ids: &[NONE; 2],
///     own_distances: &[NONE; 2],
///     rival_ids: &[0, NONE],
///     rival_distances: &[0, NONE],
/// };
/// assert_eq!(nearer_row(one_node, 0, tables), Ok(&[0, NONE][..]));
/// ```
#[derive(Clone, Copy, Debug)]
pub struct TwoTables<'a> {
    /// K, the places of a row.
    pub places: u32,
    /// The points of each own row.
    pub own_ids: &'a [u32],
    /// The distance of each of them from the row's node.
    pub own_distances: &'a [u32],
    /// The points of each of the rival's rows.
    pub rival_ids: &'a [u32],
    /// The distance of each of them from the row's node.
    pub rival_distances: &'a [u32],
}

/// Document 02 (Ask 1): "Maps also need one row per junction: of an own table and a rival's, the call
/// hands back the row whose first entry is nearer, the own one when equal. [...] It returns the row's
/// distances".
///
/// [`NONE`](super::NONE) is farther than every distance. The part is one of `own_distances` or of
/// `rival_distances`, without a copy; [`nearer_row_part`] says of which.
///
/// ```
/// use overlap::calls::{nearer_row, Network, TwoTables, NONE};
/// use overlap::Refusal;
///
/// # fn main() -> Result<(), Refusal> {
/// // Three nodes, the roads 0-1 of 4 and 1-2 of 3. The own point is on node 0, the rival's are on 2.
/// let network = Network {
///     starts: &[0, 1, 3, 4],
///     neighbours: &[1, 0, 2, 1],
///     weights: &[4, 4, 3, 3],
/// };
/// let tables = TwoTables {
///     places: 2,
///     own_ids: &[0, NONE, 0, NONE, 0, NONE],
///     own_distances: &[0, NONE, 4, NONE, 7, NONE],
///     rival_ids: &[2; 6],
///     rival_distances: &[7, 7, 3, 3, 0, 0],
/// };
/// assert_eq!(nearer_row(network, 0, tables)?, [0, NONE]);
/// assert_eq!(nearer_row(network, 1, tables)?, [3, 3]);
///
/// // The own one when equal.
/// let equal = TwoTables { own_distances: &[0, NONE, 3, NONE, 7, NONE], ..tables };
/// assert_eq!(nearer_row(network, 1, equal)?, [3, NONE]);
///
/// // The rival's arrays have another K.
/// let other = TwoTables { rival_ids: &[2; 9], rival_distances: &[7; 9], ..tables };
/// assert_eq!(nearer_row(network, 1, other), Err(Refusal::Table));
/// # Ok(())
/// # }
/// ```
///
/// # Errors
///
/// The first condition met of 1 to 5, 7 and 8, as of [`nearer_row_number`].
pub fn nearer_row<'a>(
    network: Network<'_>,
    junction: u32,
    tables: TwoTables<'a>,
) -> Result<&'a [u32], Refusal> {
    nearer_row_part(network, junction, tables).of(tables)
}

/// Document 02 (Ask 1): "a second call on the same inputs gives the number."
///
/// It is 0, or the first condition met of 1 to 5, 7 and 8: "8 each table, in the order lent." The call
/// has no scratch and changes nothing.
///
/// ```
/// use overlap::calls::{nearer_row_number, Network, TwoTables};
///
/// let one_node = Network { starts: &[0, 0], neighbours: &[], weights: &[] };
/// let two = &[0; 2];
/// let tables = TwoTables {
///     places: 2,
///     own_ids: two,
///     own_distances: two,
///     rival_ids: two,
///     rival_distances: two,
/// };
/// assert_eq!(nearer_row_number(one_node, 0, tables), 0);
/// assert_eq!(nearer_row_number(one_node, 1, tables), 7);
/// let short = TwoTables { rival_ids: &two[..1], ..tables };
/// assert_eq!(nearer_row_number(one_node, 0, short), 8);
/// ```
#[must_use]
pub fn nearer_row_number(network: Network<'_>, junction: u32, tables: TwoTables<'_>) -> u32 {
    // SAFETY: each pointer and length are those of one slice, lent for the whole call, which writes
    // none of them and touches no word outside of them. An empty slice has a pointer that is not
    // null.
    unsafe {
        lend!(ffi::overlap_nearer_row_number(
            ..network,
            junction,
            tables.places,
            &tables.own_ids,
            &tables.own_distances,
            &tables.rival_ids,
            &tables.rival_distances
        ))
    }
}

/// Which part of which array of distances [`nearer_row`] hands back, as the engine answers it.
///
/// ```
/// use overlap::calls::{nearer_row_part, Network, TwoTables};
///
/// let one_node = Network { starts: &[0, 0], neighbours: &[], weights: &[] };
/// let tables = TwoTables {
///     places: 2,
///     own_ids: &[0; 2],
///     own_distances: &[5, 6],
///     rival_ids: &[0; 2],
///     rival_distances: &[4, 7],
/// };
/// let part = nearer_row_part(one_node, 0, tables);
/// assert_eq!((part.rival, part.start, part.length), (1, 0, 2));
/// ```
pub fn nearer_row_part(network: Network<'_>, junction: u32, tables: TwoTables<'_>) -> RowPart {
    // SAFETY: as for `nearer_row_number`.
    unsafe {
        lend!(ffi::overlap_nearer_row_part(
            ..network,
            junction,
            tables.places,
            &tables.own_ids,
            &tables.own_distances,
            &tables.rival_ids,
            &tables.rival_distances
        ))
    }
}
