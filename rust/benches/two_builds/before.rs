//! The calls of the other build, in the form of this one's. A request that changes a call's form
//! says here how the other build is called.
//!
//! Ask 4 changes eager's. A build before it is lent no array for the visits and lists none: its number,
//! list, count and scratch are compared with this one's, and the visits are not. This build is lent the
//! array and timed with all that it does more: it keeps the visits and copies them. A build since Ask
//! 4, as this one is in a control, is lent the array too, and all is compared; `run` sees which form it
//! has.
//!
//! Ask 6 changes no form, and answers only where the site is a point. No site is one here, which
//! `main.rs` sees to, so the answers of a build before it are compared whole.
//!
//! Ask 1 adds three calls, and Ask 7 one. A build before has none of them, and `main.rs` asks it for
//! none; `run` sees whether it has.
//!
//! Ask 10 changes the k of the short query, from 1 to 2, and with it what it answers. `main.rs` asks both
//! builds for P1 as a short query and times theirs only where they take the same k. The sheet's k stays.
//!
//! Both are lent what they ask for, 12 × n words of scratch since Ask 5. A build before Ask 5 asks for
//! more and is not called any more.

use super::calls::Functions;
use before::calls as old;
use overlap::calls::{Listing, Network, Table, TableMut, Update, Verdict};
#[cfg(feature = "households")]
use overlap::calls::{RowPart, TwoTables};

pub const BEFORE: Functions = Functions {
    eager_scratch: |n| old::eager_scratch_len(network(n)),
    network_check: |n| old::network_check(network(n)),
    distances: |n, node, s, a| old::distances(network(n), node, s, a),
    nearest: |n, points, node, e, k, s, found| {
        let found = old::Found {
            ids: found.ids,
            distances: found.distances,
        };
        listing(old::nearest(network(n), points, node, e, k, s, found))
    },
    verify: |n, points, p, q, k, s| verdict(old::verify(network(n), points, p, q, k, s)),
    #[cfg(feature = "visits")]
    eager: |n, points, q, k, limit, s, a, v| {
        listing(old::eager(network(n), points, q, k, limit, s, a, v))
    },
    #[cfg(not(feature = "visits"))]
    eager: |n, points, q, k, limit, s, a, _| {
        listing(old::eager(network(n), points, q, k, limit, s, a))
    },
    lists_visits: cfg!(feature = "visits"),
    short_query: |n, points, q, s, a| listing(old::short_query(network(n), points, q, s, a)),
    lazy: |n, points, q, k, s, a| listing(old::lazy(network(n), points, q, k, s, a)),
    lazy_ep: |n, points, q, k, s, a| listing(old::lazy_ep(network(n), points, q, k, s, a)),
    build: |n, points, s, t| old::build(network(n), points, s, table_mut(t)),
    insert: |n, points, node, s, t| update(old::insert(network(n), points, node, s, table_mut(t))),
    remove: |n, points, node, s, t| update(old::remove(network(n), points, node, s, table_mut(t))),
    table_query: |n, points, q, k, t, s, a| {
        listing(old::table_query(network(n), points, q, k, table(t), s, a))
    },
    table_check: |n, points, t| verdict(old::table_check(network(n), points, table(t))),
    #[cfg(feature = "households")]
    households: |n, households, sites, q, k, s, a| {
        listing(old::households(network(n), households, sites, q, k, s, a))
    },
    #[cfg(feature = "households")]
    sheet: |n, households, sites, s, a| old::sheet(network(n), households, sites, s, a),
    #[cfg(feature = "households")]
    nearer_row_part: |n, junction, t| {
        row_part(old::nearer_row_part(network(n), junction, two_tables(t)))
    },
    #[cfg(not(feature = "households"))]
    households: |_, _, _, _, _, _, _| unreachable!("{NONE_OF_ASK_1}"),
    #[cfg(not(feature = "households"))]
    sheet: |_, _, _, _, _| unreachable!("{NONE_OF_ASK_1}"),
    #[cfg(not(feature = "households"))]
    nearer_row_part: |_, _, _| unreachable!("{NONE_OF_ASK_1}"),
    #[cfg(feature = "route")]
    route: |n, points, route, k, s, a| listing(old::route(network(n), points, route, k, s, a)),
    #[cfg(not(feature = "route"))]
    route: |_, _, _, _, _, _| unreachable!("a build before Ask 7 has no such call"),
};

#[cfg(not(feature = "households"))]
const NONE_OF_ASK_1: &str = "a build before Ask 1 has no such call";

fn network(lent: Network<'_>) -> old::Network<'_> {
    old::Network {
        starts: lent.starts,
        neighbours: lent.neighbours,
        weights: lent.weights,
    }
}

fn table(lent: Table<'_>) -> old::Table<'_> {
    old::Table {
        places: lent.places,
        ids: lent.ids,
        distances: lent.distances,
    }
}

fn table_mut(lent: TableMut<'_>) -> old::TableMut<'_> {
    old::TableMut {
        places: lent.places,
        ids: lent.ids,
        distances: lent.distances,
    }
}

#[cfg(feature = "households")]
fn two_tables(lent: TwoTables<'_>) -> old::TwoTables<'_> {
    old::TwoTables {
        places: lent.places,
        own_ids: lent.own_ids,
        own_distances: lent.own_distances,
        rival_ids: lent.rival_ids,
        rival_distances: lent.rival_distances,
    }
}

#[cfg(feature = "households")]
fn row_part(answer: old::RowPart) -> RowPart {
    RowPart {
        number: answer.number,
        rival: answer.rival,
        start: answer.start,
        length: answer.length,
    }
}

fn listing(answer: old::Listing) -> Listing {
    Listing {
        number: answer.number,
        count: answer.count,
        length: answer.length,
    }
}

fn verdict(answer: old::Verdict) -> Verdict {
    Verdict {
        number: answer.number,
        yes: answer.yes,
    }
}

fn update(answer: old::Update) -> Update {
    Update {
        number: answer.number,
        changed: answer.changed,
    }
}
