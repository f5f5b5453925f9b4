//! Every call in one form, by the engine and by plain Rust.

use super::common::change::ChangeCall;
use super::common::eager::EagerCall;
use super::common::site::SearchCall;
use super::lent::{Lent, Scratch};
use super::plain;
use overlap::calls::{eager_scratch_len, Found, Listing, Network, NONE};
use overlap::calls::{RowPart, Table, TableMut, TwoTables, Verdict};

/// The functions of the engine, their twins in plain Rust, or those of another build.
#[allow(clippy::type_complexity)] // each type is used once, and a field reads as its function does
pub struct Functions {
    /// The words of scratch that eager, verify and the short query ask for.
    pub eager_scratch: fn(Network<'_>) -> usize,
    pub network_check: fn(Network<'_>) -> u32,
    pub distances: fn(Network<'_>, u32, &mut [u32], &mut [u32]) -> u32,
    pub nearest: fn(Network<'_>, &[u8], u32, u32, u32, &mut [u32], Found<'_>) -> Listing,
    pub verify: fn(Network<'_>, &[u8], u32, u32, u32, &mut [u32]) -> Verdict,
    pub eager: EagerCall,
    /// Whether eager lists its visits. A build before Ask 4 lists none.
    pub lists_visits: bool,
    pub short_query: fn(Network<'_>, &[u8], u32, &mut [u32], &mut [u32]) -> Listing,
    pub lazy: SearchCall,
    pub lazy_ep: SearchCall,
    pub build: fn(Network<'_>, &[u8], &mut [u32], TableMut<'_>) -> u32,
    pub insert: ChangeCall,
    pub remove: ChangeCall,
    pub table_query: fn(Network<'_>, &[u8], u32, u32, Table<'_>, &mut [u32], &mut [u32]) -> Listing,
    pub table_check: fn(Network<'_>, &[u8], Table<'_>) -> Verdict,
    pub households: fn(Network<'_>, &[u8], &[u8], u32, u32, &mut [u32], &mut [u32]) -> Listing,
    pub sheet: fn(Network<'_>, &[u8], &[u8], &mut [u32], &mut [u32]) -> u32,
    pub nearer_row_part: fn(Network<'_>, u32, TwoTables<'_>) -> RowPart,
    pub route: fn(Network<'_>, &[u8], &[u32], u32, &mut [u32], &mut [u32]) -> Listing,
}

pub const ENGINE: Functions = Functions {
    eager_scratch: eager_scratch_len,
    network_check: overlap::calls::network_check,
    distances: overlap::calls::distances,
    nearest: overlap::calls::nearest,
    verify: overlap::calls::verify,
    eager: overlap::calls::eager,
    lists_visits: true,
    short_query: overlap::calls::short_query,
    lazy: overlap::calls::lazy,
    lazy_ep: overlap::calls::lazy_ep,
    build: overlap::calls::build,
    insert: overlap::calls::insert,
    remove: overlap::calls::remove,
    table_query: overlap::calls::table_query,
    table_check: overlap::calls::table_check,
    households: overlap::calls::households,
    sheet: overlap::calls::sheet,
    nearer_row_part: overlap::calls::nearer_row_part,
    route: overlap::calls::route,
};

pub const PLAIN: Functions = Functions {
    eager_scratch: ENGINE.eager_scratch,
    network_check: plain::network_check,
    distances: plain::distances,
    nearest: plain::nearest,
    verify: plain::verify,
    eager: plain::eager,
    lists_visits: true,
    short_query: plain::short_query,
    lazy: plain::lazy,
    lazy_ep: plain::lazy_ep,
    build: plain::build,
    insert: plain::insert,
    remove: plain::remove,
    table_query: plain::table_query,
    table_check: plain::table_check,
    households: plain::households,
    sheet: plain::sheet,
    nearer_row_part: plain::nearer_row_part,
    route: plain::route,
};

/// The engine and its twins.
pub const TWINS: [&Functions; 2] = [&ENGINE, &PLAIN];

/// What a call is asked: a site, a point, k, eager's limit, and a route. Insert adds a locker to the
/// site, remove takes one from the point. The site is the junction of the nearer row.
#[derive(Clone, Copy, Debug)]
pub struct Query<'a> {
    pub site: u32,
    pub point: u32,
    pub k: u32,
    pub limit: u32,
    pub route: &'a [u32],
}

/// The number, then the list's length, yes, the rows changed or where the nearer row ends, then eager's
/// count or whether that row is the rival's.
pub type Answer = (u32, usize, u32);

/// A call: its name and how it is run.
#[derive(Clone, Copy)]
pub struct Call {
    pub name: &'static str,
    pub run: Run,
}

type Run = fn(&Functions, &mut Lent<'_>, Query<'_>) -> Answer;

const fn call(name: &'static str, run: Run) -> Call {
    Call { name, run }
}

pub const NETWORK_CHECK: Call = call("network check", |by, lent, _| {
    ((by.network_check)(lent.network), 0, 0)
});

pub const DISTANCES: Call = call("distances", |by, lent, query| {
    let (network, w) = (lent.network, &mut lent.written);
    let scratch = lent.scratch.of(network, 1);
    let number = (by.distances)(network, query.site, scratch, &mut w.answers);
    (number, 0, 0)
});

pub const NEAREST: Call = call("nearest", |by, lent, Query { site, k, .. }| {
    let (network, w) = (lent.network, &mut lent.written);
    let scratch = lent.scratch.of(network, k);
    let found = Found {
        ids: &mut w.answers,
        distances: &mut w.answer_distances,
    };
    of_listing((by.nearest)(
        network, &w.points, site, NONE, k, scratch, found,
    ))
});

pub const VERIFY: Call = call("verify", |by, lent, query| {
    let (network, points) = (lent.network, &lent.written.points);
    let scratch = eager_scratch(by, network, &mut lent.scratch);
    of_verdict((by.verify)(
        network,
        points,
        query.point,
        query.site,
        query.k,
        scratch,
    ))
});

pub const EAGER: Call = call("eager", |by, lent, query| {
    let (network, w) = (lent.network, &mut lent.written);
    let scratch = eager_scratch(by, network, &mut lent.scratch);
    let (q, k, limit) = (query.site, query.k, query.limit);
    of_listing((by.eager)(
        network,
        &w.points,
        q,
        k,
        limit,
        scratch,
        &mut w.answers,
        &mut w.visits,
    ))
});

pub const SHORT_QUERY: Call = call("short query", |by, lent, query| {
    let (network, w) = (lent.network, &mut lent.written);
    let scratch = eager_scratch(by, network, &mut lent.scratch);
    of_listing((by.short_query)(
        network,
        &w.points,
        query.site,
        scratch,
        &mut w.answers,
    ))
});

pub const LAZY: Call = call("lazy", |by, lent, query| search(by.lazy, lent, query));

pub const LAZY_EP: Call = call("lazy-EP", |by, lent, query| search(by.lazy_ep, lent, query));

pub const BUILD: Call = call("build", |by, lent, _| {
    let scratch = lent.scratch.of(lent.network, lent.places);
    let (points, table) = lent.written.points_and_table(lent.places);
    ((by.build)(lent.network, points, scratch, table), 0, 0)
});

pub const INSERT: Call = call("insert", |by, lent, query| {
    change(by.insert, lent, query.site)
});

pub const REMOVE: Call = call("remove", |by, lent, query| {
    change(by.remove, lent, query.point)
});

pub const TABLE_QUERY: Call = call("table query", |by, lent, Query { site, k, .. }| {
    let (network, w) = (lent.network, &mut lent.written);
    let scratch = lent.scratch.of(network, k);
    let table = Table {
        places: lent.places,
        ids: &w.ids,
        distances: &w.distances,
    };
    of_listing((by.table_query)(
        network,
        &w.points,
        site,
        k,
        table,
        scratch,
        &mut w.answers,
    ))
});

pub const TABLE_CHECK: Call = call("table check", |by, lent, _| {
    let w = &lent.written;
    let table = Table {
        places: lent.places,
        ids: &w.ids,
        distances: &w.distances,
    };
    of_verdict((by.table_check)(lent.network, &w.points, table))
});

pub const HOUSEHOLDS: Call = call("households", |by, lent, Query { site, k, .. }| {
    let (network, w) = (lent.network, &mut lent.written);
    let scratch = lent.scratch.of(network, k);
    of_listing((by.households)(
        network,
        &lent.households,
        &w.points,
        site,
        k,
        scratch,
        &mut w.answers,
    ))
});

pub const SHEET: Call = call("sheet", |by, lent, _| {
    let (network, w) = (lent.network, &mut lent.written);
    let scratch = lent.scratch.of(network, 1);
    let number = (by.sheet)(
        network,
        &lent.households,
        &w.points,
        scratch,
        &mut w.answers,
    );
    (number, 0, 0)
});

pub const NEARER_ROW: Call = call("nearer row", |by, lent, query| {
    let tables = TwoTables {
        places: lent.places,
        own_ids: &lent.written.ids,
        own_distances: &lent.written.distances,
        rival_ids: &lent.rival_ids,
        rival_distances: &lent.rival_distances,
    };
    let part = (by.nearer_row_part)(lent.network, query.site, tables);
    (part.number, part.start + part.length, part.rival)
});

/// The most nodes of a route that is timed.
pub const LONGEST_ROUTE: usize = 300;

pub const ROUTE_1: Call = call("route of 1", |by, lent, query| {
    route(by, lent, first_of_route(1, query))
});

pub const ROUTE_10: Call = call("route of 10", |by, lent, query| {
    route(by, lent, first_of_route(10, query))
});

pub const ROUTE_300: Call = call("route of 300", |by, lent, query| {
    route(by, lent, first_of_route(LONGEST_ROUTE, query))
});

/// Every call of the interface.
pub const ALL: [Call; 19] = [
    NETWORK_CHECK,
    DISTANCES,
    NEAREST,
    VERIFY,
    EAGER,
    SHORT_QUERY,
    LAZY,
    LAZY_EP,
    BUILD,
    INSERT,
    REMOVE,
    TABLE_QUERY,
    TABLE_CHECK,
    HOUSEHOLDS,
    SHEET,
    NEARER_ROW,
    ROUTE_1,
    ROUTE_10,
    ROUTE_300,
];

/// The calls that take a k.
pub const BY_K: [Call; 8] = [
    NEAREST,
    VERIFY,
    EAGER,
    LAZY,
    LAZY_EP,
    TABLE_QUERY,
    HOUSEHOLDS,
    ROUTE_10,
];

/// The words of scratch for eager, verify or the short query.
fn eager_scratch<'a>(
    by: &Functions,
    network: Network<'_>,
    scratch: &'a mut Scratch,
) -> &'a mut [u32] {
    scratch.of_length((by.eager_scratch)(network))
}

/// The query with so many nodes of its route, as far as it has them.
pub fn first_of_route(length: usize, query: Query<'_>) -> Query<'_> {
    let route = query.route.get(..length).unwrap_or(query.route);
    Query { route, ..query }
}

fn route(by: &Functions, lent: &mut Lent<'_>, Query { route, k, .. }: Query<'_>) -> Answer {
    let (network, w) = (lent.network, &mut lent.written);
    let scratch = lent.scratch.of(network, k);
    of_listing((by.route)(
        network,
        &w.points,
        route,
        k,
        scratch,
        &mut w.answers,
    ))
}

fn search(search: SearchCall, lent: &mut Lent<'_>, query: Query<'_>) -> Answer {
    let (network, w) = (lent.network, &mut lent.written);
    let scratch = lent.scratch.of(network, query.k);
    of_listing(search(
        network,
        &w.points,
        query.site,
        query.k,
        scratch,
        &mut w.answers,
    ))
}

fn change(change: ChangeCall, lent: &mut Lent<'_>, node: u32) -> Answer {
    let scratch = lent.scratch.of(lent.network, lent.places);
    let (points, table) = lent.written.points_and_table(lent.places);
    let update = change(lent.network, points, node, scratch, table);
    (update.number, update.changed as usize, 0)
}

fn of_listing(listing: Listing) -> Answer {
    (listing.number, listing.length, listing.count)
}

fn of_verdict(verdict: Verdict) -> Answer {
    (verdict.number, verdict.yes as usize, 0)
}
