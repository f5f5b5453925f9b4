//! What a call answers and leaves, by two builds or by the engine and its twin.

use super::calls::{Answer, Call, Functions, Query, BUILD, ENGINE};
use super::lent::{Lent, Written};
use overlap::calls::Network;

/// Arrays as `Lent::new` makes them, with the table of the points where network and points are
/// accepted.
pub fn built<'a>(network: Network<'a>, points: &[u8], places: u32, most_m: u32) -> Lent<'a> {
    let mut lent = Lent::new(network, points, places, most_m);
    let query = Query {
        site: 0,
        point: 0,
        k: 1,
        limit: 0,
        route: &[],
    };
    (BUILD.run)(&ENGINE, &mut lent, query);
    lent
}

/// Runs a call by both from the same arrays and returns the answer, which is the same.
pub fn assert_same(
    lent: &mut Lent<'_>,
    by: [&Functions; 2],
    call: Call,
    query: Query<'_>,
    before: &Written,
) -> Answer {
    let [one, other] = by.map(|by| outcome(lent, by, call, query, before));
    let is_same = (one.answer, one.scratch) == (other.answer, other.scratch)
        && one.written.is_same(&other.written, both_list_visits(by));
    assert!(is_same, "{} differs: {query:?}", call.name);
    one.answer
}

/// Whether the visits of both can be compared.
pub fn both_list_visits(by: [&Functions; 2]) -> bool {
    by.iter().all(|by| by.lists_visits)
}

/// What a call answers, and what it leaves in every array that it may write.
struct Outcome {
    answer: Answer,
    written: Written,
    scratch: Option<u32>,
}

/// The outcome of a call that starts from these arrays and old entries in scratch.
fn outcome(
    lent: &mut Lent<'_>,
    by: &Functions,
    call: Call,
    query: Query<'_>,
    before: &Written,
) -> Outcome {
    lent.written.clone_from(before);
    lent.scratch.make_old();
    Outcome {
        answer: (call.run)(by, lent, query),
        written: lent.written.clone(),
        scratch: lent.scratch.left(),
    }
}
