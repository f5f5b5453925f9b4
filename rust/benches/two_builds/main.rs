//! The time of every call, this tree's engine against another build of it, on the networks of
//! docs/PERFORMANCE.md that have at most one locker to a node. `run` beside this file says how it is
//! used.

// The modules are the benchmark's and the tests'; a part of each is used here.
mod before;
#[allow(dead_code)]
#[path = "../performance/calls.rs"]
mod calls;
#[path = "../../tests/common/mod.rs"]
mod common;
#[path = "../performance/lent.rs"]
mod lent;
#[path = "../performance/measure.rs"]
mod measure;
#[allow(dead_code)]
#[path = "../performance/networks.rs"]
mod networks;
#[path = "../performance/outcome.rs"]
mod outcome;
#[path = "../plain/mod.rs"]
mod plain;
#[path = "../performance/roads.rs"]
mod roads;

use before::BEFORE;
use calls::{Call, Functions, Query, ENGINE, HOUSEHOLDS, NEARER_ROW, ROUTE_1, ROUTE_10, ROUTE_300};
use calls::{SHEET, SHORT_QUERY};
use common::network::{marks, network_n, N_NODES, N_POINTS};
use measure::{measure, Budget};
use networks::{limits, roads, streets, Subject};
use outcome::built;
use std::time::Duration;

const BUDGET: Budget = Budget {
    time: Duration::from_secs(10),
    least_pairs: 31,
    most_pairs: 256,
};

/// Prints a table of these calls on a network, with k = 4 and a table of these places.
fn print_times(subject: &Subject, calls: &[Call], places: u32) {
    println!(
        "\n### {}, K = {places}\n\n| Call | Pairs | This build, ms | The other, ms | Ratio |\n|---|---|---|---|---|",
        subject.name
    );
    let queries = subject.queries(4);
    let is_on_a_point = |query: &Query<'_>| subject.points[query.site as usize] > 0;
    let differs = "a build before Ask 6 lists a point on its own site";
    assert!(!queries.iter().any(is_on_a_point), "{differs}");
    let mut lent = built(subject.network.lend(), &subject.points, places, places);
    for &call in calls {
        let pairs = measure(call, [&ENGINE, &BEFORE], &mut lent, &queries, BUDGET);
        print!("{}", pairs.row(call.name, 3));
    }
}

/// The calls that a build before Ask 1 has not, and those that one before Ask 7 has not.
const OF_ASK_1: [Call; 3] = [HOUSEHOLDS, SHEET, NEARER_ROW];
const OF_ASK_7: [Call; 3] = [ROUTE_1, ROUTE_10, ROUTE_300];

/// The length of P1's list as a short query: 2, and 1 by a build before Ask 10.
fn p1_by_short_query(by: &Functions) -> usize {
    let network = network_n();
    let points = marks(N_NODES, &N_POINTS);
    let (mut scratch, mut answers) = ([0; 12 * N_NODES as usize], [0; N_NODES as usize]);
    let listing = (by.short_query)(network.lend(), &points, 0, &mut scratch, &mut answers);
    listing.length
}

/// The calls that both builds have and mean the same by.
fn shared_calls() -> Vec<Call> {
    let is_one_of = |call: &Call, calls: &[Call]| calls.iter().any(|one| one.name == call.name);
    let has_same_k = p1_by_short_query(&ENGINE) == p1_by_short_query(&BEFORE);
    let is_shared = |call: &Call| {
        (cfg!(feature = "households") || !is_one_of(call, &OF_ASK_1))
            && (cfg!(feature = "route") || !is_one_of(call, &OF_ASK_7))
            && (has_same_k || call.name != SHORT_QUERY.name)
    };
    calls::ALL.into_iter().filter(is_shared).collect()
}

fn main() {
    let names: Vec<String> = std::env::args().skip(1).collect();
    let shared = shared_calls();
    let of_name = |name: &String| {
        let call = shared.iter().find(|call| call.name == name);
        *call.unwrap_or_else(|| panic!("no call that both builds have alike is named {name}"))
    };
    let calls: Vec<Call> = match names.len() {
        0 => shared,
        _ => names.iter().map(of_name).collect(),
    };
    print_times(&streets(255), &calls, 5);
    print_times(&roads(65_535), &calls, 5);
    print_times(&limits(), &calls, 17);
}
