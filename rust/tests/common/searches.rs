//! All four searches, the short query and the route of one node, for one site.

use super::eager::SHORT_K;
use overlap::{Engine, Refusal, Table};

/// Sees that all four searches give this list for q and k, and eager these visits, as many as its count
/// and no more than its limit; for the k of the short query that it gives the list and the count as
/// well. So does a route of q alone give the list (Ask 7). The points are the table's.
pub fn assert_site(
    engine: &mut Engine,
    table: &mut Table,
    (q, k): (u32, u32),
    list: &[u32],
    visits: &[u32],
) {
    let (points, expanded) = (table.points(), visits.len() as u32);
    let story = format!("q {q}, k {k}, K {}, {:?}", table.places(), points.marks());
    let expansion = engine.eager(points, q, k, expanded).unwrap();
    assert_eq!(expansion.points, list, "eager, {story}");
    assert_eq!(expansion.expanded, expanded, "{story}");
    assert_eq!(expansion.visits, visits, "{story}");
    let beyond = engine.eager(points, q, k, expanded - 1);
    assert_eq!(beyond, Err(Refusal::Limit), "{story}");
    assert_eq!(engine.lazy(points, q, k), Ok(list), "lazy, {story}");
    assert_eq!(engine.lazy_ep(points, q, k), Ok(list), "lazy-EP, {story}");
    assert_eq!(engine.route(points, &[q], k), Ok(list), "route, {story}");
    if k == SHORT_K {
        let short = engine.short_query(points, q).unwrap();
        let (is, count) = (short.points, short.expanded);
        assert_eq!((is, count), (list, expanded), "short query, {story}");
    }
    assert_eq!(table.query(q, k), Ok(list), "table query, {story}");
}
