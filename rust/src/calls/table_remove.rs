//! Removal of a point from the table.

use super::table::change;
use super::{ffi, Network, TableMut, Update};

/// Document 02 (Ask 8): "[...] remove takes one".
///
/// The answer and all that the call leaves are those of [`insert`](super::insert), but that the node
/// has one locker less after.
///
/// ```
/// use overlap::calls::{accepted, build, remove, scratch_len, Network, TableMut};
///
/// # fn main() -> Result<(), overlap::Refusal> {
/// // Network N of document 01.
/// let network = Network {
///     starts: &[0, 2, 4, 6, 8, 10, 10],
///     neighbours: &[1, 3, 0, 2, 1, 4, 0, 4, 2, 3],
///     weights: &[4, 5, 4, 3, 3, 7, 5, 3, 7, 3],
/// };
/// let mut points = [1, 0, 1, 0, 1, 1];
/// let mut scratch = vec![0; scratch_len(network, 2)];
/// let (mut ids, mut distances) = ([0; 12], [0; 12]);
/// let table = TableMut { places: 2, ids: &mut ids, distances: &mut distances };
/// accepted(build(network, &points, &mut scratch, table))?;
///
/// // P10 undone: four rows change, and that of node 0 is the one of P8.
/// let table = TableMut { places: 2, ids: &mut ids, distances: &mut distances };
/// let changed = remove(network, &mut points, 0, &mut scratch, table).accepted()?;
/// assert_eq!(changed, 4);
/// assert_eq!(points, [0, 0, 1, 0, 1, 1]);
/// assert_eq!((&ids[..2], &distances[..2]), (&[2, 4][..], &[7, 8][..]));
///
/// // Node 0 has no locker by now.
/// let table = TableMut { places: 2, ids: &mut ids, distances: &mut distances };
/// assert_eq!(remove(network, &mut points, 0, &mut scratch, table).number, 11);
/// # Ok(())
/// # }
/// ```
pub fn remove(
    network: Network<'_>,
    points: &mut [u8],
    node: u32,
    scratch: &mut [u32],
    table: TableMut<'_>,
) -> Update {
    change(ffi::overlap_remove, network, points, node, scratch, table)
}
