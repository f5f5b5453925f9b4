//! The engine's C interface, as `overlap.h` fixes it.
//!
//! A slice passes as a pointer and then a length in elements. The engine tests all contents itself,
//! so a call asks only that each pointer is valid for its length, and that an array which the call
//! writes is lent to nobody else.

/// The answer of a call that lists points, or nodes of households: `overlap_listing` of `overlap.h`.
///
/// Document 01: "An accepted call returns number 0; a listing or nearest call also the length of
/// its list. A refusal returns its number, count 0 and no".
///
/// ```
/// use overlap::calls::{lazy, Listing, Network};
///
/// // k is 0, which 9 refuses before the lengths of scratch and answers are looked at.
/// let one_node = Network { starts: &[0, 0], neighbours: &[], weights: &[] };
/// let listing = lazy(one_node, &[1], 0, 0, &mut [], &mut []);
/// assert_eq!(listing, Listing { number: 9, count: 0, length: 0 });
/// ```
#[repr(C)]
#[must_use]
#[derive(Clone, Copy, Debug, Default, PartialEq, Eq)]
pub struct Listing {
    /// 0, or the number of the refusal.
    pub number: u32,
    /// The nodes that eager expanded, also as the short query; 0 for the other calls and on a refusal.
    pub count: u32,
    /// The length of the list; 0 on a refusal.
    pub length: usize,
}

/// The answer of a call that says yes or no: `overlap_verdict` of `overlap.h`.
///
/// Document 01: "A refusal returns its number, count 0 and no".
///
/// ```
/// use overlap::calls::{eager_scratch_len, verify, Network, Verdict};
///
/// // Two nodes and one road of weight 4 between them; a point on node 1, and a site on node 0.
/// let network = Network { starts: &[0, 1, 2], neighbours: &[1, 0], weights: &[4, 4] };
/// let mut scratch = vec![0; eager_scratch_len(network)];
/// let verdict = verify(network, &[0, 1], 1, 0, 1, &mut scratch);
/// assert_eq!(verdict, Verdict { number: 0, yes: 1 });
///
/// // The site on node 1 too. Document 02 (Ask 6): "Verify of the point on q says no."
/// let verdict = verify(network, &[0, 1], 1, 1, 1, &mut scratch);
/// assert_eq!(verdict, Verdict { number: 0, yes: 0 });
/// ```
#[repr(C)]
#[must_use]
#[derive(Clone, Copy, Debug, Default, PartialEq, Eq)]
pub struct Verdict {
    /// 0, or the number of the refusal.
    pub number: u32,
    /// 1 for yes; 0 for no and on a refusal.
    pub yes: u32,
}

/// The answer of a call that changes a table: `overlap_update` of `overlap.h`.
///
/// Document 01: "each brings the table up to date and returns the number of rows whose contents
/// differ before and after". "A refusal returns its number, count 0 and no".
///
/// ```
/// use overlap::calls::{insert, scratch_len, Network, TableMut, Update, NONE};
///
/// // One node without a point, and its table of two empty places.
/// let one_node = Network { starts: &[0, 0], neighbours: &[], weights: &[] };
/// let (mut points, mut ids, mut distances) = ([0], [NONE; 2], [NONE; 2]);
/// let mut scratch = vec![0; scratch_len(one_node, 2)];
/// let table = TableMut { places: 2, ids: &mut ids, distances: &mut distances };
/// let update = insert(one_node, &mut points, 0, &mut scratch, table);
/// assert_eq!(update, Update { number: 0, changed: 1 });
/// ```
#[repr(C)]
#[must_use]
#[derive(Clone, Copy, Debug, Default, PartialEq, Eq)]
pub struct Update {
    /// 0, or the number of the refusal.
    pub number: u32,
    /// The rows that changed; 0 on a refusal.
    pub changed: u32,
}

/// The answer of a call that says which row is nearer: `overlap_row_part` of `overlap.h`.
///
/// Document 02 (Ask 1): "of an own table and a rival's, the call hands back the row whose first entry
/// is nearer, the own one when equal. [...] It returns the row's distances, on a refusal an empty
/// part". A reference can't be returned across the boundary, so this says which part of which array
/// it is; [`nearer_row`](super::nearer_row()) hands back the part itself.
///
/// ```
/// use overlap::calls::{nearer_row_part, Network, RowPart, TwoTables, NONE};
///
/// // Two nodes and one road of weight 4 between them. The own point is on node 1, the rival's on node
/// // 0, which is nearer to node 0.
/// let network = Network { starts: &[0, 1, 2], neighbours: &[1, 0], weights: &[4, 4] };
/// let tables = TwoTables {
///     places: 2,
///     own_ids: &[1, NONE, 1, NONE],
///     own_distances: &[4, NONE, 0, NONE],
///     rival_ids: &[0, NONE, 0, NONE],
///     rival_distances: &[0, NONE, 4, NONE],
/// };
/// let part = nearer_row_part(network, 0, tables);
/// assert_eq!(part, RowPart { number: 0, rival: 1, start: 0, length: 2 });
/// let part = nearer_row_part(network, 1, tables);
/// assert_eq!(part, RowPart { number: 0, rival: 0, start: 2, length: 2 });
///
/// // There is no node 2.
/// let part = nearer_row_part(network, 2, tables);
/// assert_eq!(part, RowPart { number: 7, rival: 0, start: 0, length: 0 });
/// ```
#[repr(C)]
#[must_use]
#[derive(Clone, Copy, Debug, Default, PartialEq, Eq)]
pub struct RowPart {
    /// 0, or the number of the refusal.
    pub number: u32,
    /// 1 for the rival's row; 0 for the own one and on a refusal.
    pub rival: u32,
    /// Where the row starts in the distances; 0 on a refusal.
    pub start: usize,
    /// The places of the row; 0 on a refusal.
    pub length: usize,
}

/// The form that lazy and lazy-EP share.
pub(crate) type Search = unsafe extern "C" fn(
    starts: *const u32,
    starts_len: usize,
    neighbours: *const u32,
    neighbours_len: usize,
    weights: *const u32,
    weights_len: usize,
    points: *const u8,
    points_len: usize,
    q: u32,
    k: u32,
    scratch: *mut u32,
    scratch_len: usize,
    answers: *mut u32,
    answers_len: usize,
) -> Listing;

/// The form of a call that changes a table.
pub(crate) type Change = unsafe extern "C" fn(
    starts: *const u32,
    starts_len: usize,
    neighbours: *const u32,
    neighbours_len: usize,
    weights: *const u32,
    weights_len: usize,
    points: *mut u8,
    points_len: usize,
    node: u32,
    places: u32,
    scratch: *mut u32,
    scratch_len: usize,
    ids: *mut u32,
    ids_len: usize,
    distances: *mut u32,
    distances_len: usize,
) -> Update;

extern "C" {
    /// Reads the three arrays and writes nothing.
    pub(crate) fn overlap_network_check(
        starts: *const u32,
        starts_len: usize,
        neighbours: *const u32,
        neighbours_len: usize,
        weights: *const u32,
        weights_len: usize,
    ) -> u32;

    /// Writes `scratch` and `answers`.
    pub(crate) fn overlap_distances(
        starts: *const u32,
        starts_len: usize,
        neighbours: *const u32,
        neighbours_len: usize,
        weights: *const u32,
        weights_len: usize,
        node: u32,
        scratch: *mut u32,
        scratch_len: usize,
        answers: *mut u32,
        answers_len: usize,
    ) -> u32;

    /// Writes `scratch`, `ids` and `distances`.
    pub(crate) fn overlap_nearest(
        starts: *const u32,
        starts_len: usize,
        neighbours: *const u32,
        neighbours_len: usize,
        weights: *const u32,
        weights_len: usize,
        points: *const u8,
        points_len: usize,
        node: u32,
        e: u32,
        k: u32,
        scratch: *mut u32,
        scratch_len: usize,
        ids: *mut u32,
        ids_len: usize,
        distances: *mut u32,
        distances_len: usize,
    ) -> Listing;

    /// Writes `scratch`.
    pub(crate) fn overlap_verify(
        starts: *const u32,
        starts_len: usize,
        neighbours: *const u32,
        neighbours_len: usize,
        weights: *const u32,
        weights_len: usize,
        points: *const u8,
        points_len: usize,
        p: u32,
        q: u32,
        k: u32,
        scratch: *mut u32,
        scratch_len: usize,
    ) -> Verdict;

    /// Writes `scratch`, `answers` and `visits`.
    pub(crate) fn overlap_eager(
        starts: *const u32,
        starts_len: usize,
        neighbours: *const u32,
        neighbours_len: usize,
        weights: *const u32,
        weights_len: usize,
        points: *const u8,
        points_len: usize,
        q: u32,
        k: u32,
        limit: u32,
        scratch: *mut u32,
        scratch_len: usize,
        answers: *mut u32,
        answers_len: usize,
        visits: *mut u32,
        visits_len: usize,
    ) -> Listing;

    /// Writes `scratch` and `answers`.
    pub(crate) fn overlap_short_query(
        starts: *const u32,
        starts_len: usize,
        neighbours: *const u32,
        neighbours_len: usize,
        weights: *const u32,
        weights_len: usize,
        points: *const u8,
        points_len: usize,
        q: u32,
        scratch: *mut u32,
        scratch_len: usize,
        answers: *mut u32,
        answers_len: usize,
    ) -> Listing;

    /// Writes `scratch` and `answers`.
    pub(crate) fn overlap_lazy(
        starts: *const u32,
        starts_len: usize,
        neighbours: *const u32,
        neighbours_len: usize,
        weights: *const u32,
        weights_len: usize,
        points: *const u8,
        points_len: usize,
        q: u32,
        k: u32,
        scratch: *mut u32,
        scratch_len: usize,
        answers: *mut u32,
        answers_len: usize,
    ) -> Listing;

    /// Writes `scratch` and `answers`.
    pub(crate) fn overlap_lazy_ep(
        starts: *const u32,
        starts_len: usize,
        neighbours: *const u32,
        neighbours_len: usize,
        weights: *const u32,
        weights_len: usize,
        points: *const u8,
        points_len: usize,
        q: u32,
        k: u32,
        scratch: *mut u32,
        scratch_len: usize,
        answers: *mut u32,
        answers_len: usize,
    ) -> Listing;

    /// Writes `scratch`, `ids` and `distances`.
    pub(crate) fn overlap_build(
        starts: *const u32,
        starts_len: usize,
        neighbours: *const u32,
        neighbours_len: usize,
        weights: *const u32,
        weights_len: usize,
        points: *const u8,
        points_len: usize,
        places: u32,
        scratch: *mut u32,
        scratch_len: usize,
        ids: *mut u32,
        ids_len: usize,
        distances: *mut u32,
        distances_len: usize,
    ) -> u32;

    /// Writes `points`, `scratch`, `ids` and `distances`.
    pub(crate) fn overlap_insert(
        starts: *const u32,
        starts_len: usize,
        neighbours: *const u32,
        neighbours_len: usize,
        weights: *const u32,
        weights_len: usize,
        points: *mut u8,
        points_len: usize,
        node: u32,
        places: u32,
        scratch: *mut u32,
        scratch_len: usize,
        ids: *mut u32,
        ids_len: usize,
        distances: *mut u32,
        distances_len: usize,
    ) -> Update;

    /// Reads all arrays and writes nothing.
    pub(crate) fn overlap_table_check(
        starts: *const u32,
        starts_len: usize,
        neighbours: *const u32,
        neighbours_len: usize,
        weights: *const u32,
        weights_len: usize,
        points: *const u8,
        points_len: usize,
        places: u32,
        ids: *const u32,
        ids_len: usize,
        distances: *const u32,
        distances_len: usize,
    ) -> Verdict;

    /// Writes `points`, `scratch`, `ids` and `distances`.
    pub(crate) fn overlap_remove(
        starts: *const u32,
        starts_len: usize,
        neighbours: *const u32,
        neighbours_len: usize,
        weights: *const u32,
        weights_len: usize,
        points: *mut u8,
        points_len: usize,
        node: u32,
        places: u32,
        scratch: *mut u32,
        scratch_len: usize,
        ids: *mut u32,
        ids_len: usize,
        distances: *mut u32,
        distances_len: usize,
    ) -> Update;

    /// Writes `scratch` and `answers`.
    pub(crate) fn overlap_table_query(
        starts: *const u32,
        starts_len: usize,
        neighbours: *const u32,
        neighbours_len: usize,
        weights: *const u32,
        weights_len: usize,
        points: *const u8,
        points_len: usize,
        q: u32,
        k: u32,
        places: u32,
        ids: *const u32,
        ids_len: usize,
        distances: *const u32,
        distances_len: usize,
        scratch: *mut u32,
        scratch_len: usize,
        answers: *mut u32,
        answers_len: usize,
    ) -> Listing;

    /// Writes `scratch` and `answers`.
    pub(crate) fn overlap_households(
        starts: *const u32,
        starts_len: usize,
        neighbours: *const u32,
        neighbours_len: usize,
        weights: *const u32,
        weights_len: usize,
        households: *const u8,
        households_len: usize,
        sites: *const u8,
        sites_len: usize,
        q: u32,
        k: u32,
        scratch: *mut u32,
        scratch_len: usize,
        answers: *mut u32,
        answers_len: usize,
    ) -> Listing;

    /// Writes `scratch` and `answers`.
    pub(crate) fn overlap_sheet(
        starts: *const u32,
        starts_len: usize,
        neighbours: *const u32,
        neighbours_len: usize,
        weights: *const u32,
        weights_len: usize,
        households: *const u8,
        households_len: usize,
        sites: *const u8,
        sites_len: usize,
        scratch: *mut u32,
        scratch_len: usize,
        answers: *mut u32,
        answers_len: usize,
    ) -> u32;

    /// Reads all arrays and writes nothing.
    pub(crate) fn overlap_nearer_row_number(
        starts: *const u32,
        starts_len: usize,
        neighbours: *const u32,
        neighbours_len: usize,
        weights: *const u32,
        weights_len: usize,
        junction: u32,
        places: u32,
        own_ids: *const u32,
        own_ids_len: usize,
        own_distances: *const u32,
        own_distances_len: usize,
        rival_ids: *const u32,
        rival_ids_len: usize,
        rival_distances: *const u32,
        rival_distances_len: usize,
    ) -> u32;

    /// Reads all arrays and writes nothing.
    pub(crate) fn overlap_nearer_row_part(
        starts: *const u32,
        starts_len: usize,
        neighbours: *const u32,
        neighbours_len: usize,
        weights: *const u32,
        weights_len: usize,
        junction: u32,
        places: u32,
        own_ids: *const u32,
        own_ids_len: usize,
        own_distances: *const u32,
        own_distances_len: usize,
        rival_ids: *const u32,
        rival_ids_len: usize,
        rival_distances: *const u32,
        rival_distances_len: usize,
    ) -> RowPart;

    /// Writes `scratch` and `answers`.
    pub(crate) fn overlap_route(
        starts: *const u32,
        starts_len: usize,
        neighbours: *const u32,
        neighbours_len: usize,
        weights: *const u32,
        weights_len: usize,
        points: *const u8,
        points_len: usize,
        route: *const u32,
        route_len: usize,
        k: u32,
        scratch: *mut u32,
        scratch_len: usize,
        answers: *mut u32,
        answers_len: usize,
    ) -> Listing;
}
