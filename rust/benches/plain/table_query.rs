//! The table query (eager-M): eager's expansion, with the rows of the table in place of the nearest
//! points.
//!
//! Words of scratch: verified flags n, found flags n, inner area 4 × n, outer area 4 × n. The lent table
//! may hold anything.

use super::area::Area;
use super::site::{listed, lockers_at, refused, Site};
use super::table::number_of;
use overlap::calls::{Listing, Network, Table};

#[inline(never)]
pub fn table_query(
    network: Network<'_>,
    points: &[u8],
    q: u32,
    k: u32,
    table: Table<'_>,
    scratch: &mut [u32],
    answers: &mut [u32],
) -> Listing {
    let site = Site {
        network,
        points,
        q,
        k: k as usize,
    };
    let number = number(site, table, scratch.len(), answers.len());
    if number != 0 {
        return refused(number);
    }
    let n = points.len();
    scratch.fill(0);
    let words = &mut scratch[..10 * n];
    search(site, table, words);
    let listing = listed(&words[n..2 * n], answers, 0);
    words.fill(0);
    listing
}

/// The first condition met of 1 to 10, or 0.
fn number(site: Site<'_>, table: Table<'_>, scratch: usize, answers: usize) -> u32 {
    let number = number_of(site.network, site.points, Some(site.q), table);
    if number != 0 {
        number
    } else if site.k == 0 || site.k >= table.places as usize {
        9
    } else if scratch < site.s_words() || answers < site.points.len() {
        10
    } else {
        0
    }
}

/// Sets the found flags.
fn search(site: Site<'_>, table: Table<'_>, words: &mut [u32]) {
    let n = site.points.len();
    let (flags, areas) = words.split_at_mut(2 * n);
    let (inner, outer) = areas.split_at_mut(4 * n);
    let mut area = Area::start(outer, site.network, site.q);
    while let Some(entry) = area.next() {
        let found = look(site, table, entry.node(), entry.distance, flags, inner);
        area.settle(entry);
        if found < site.k {
            area.open(site.network, entry);
        }
    }
}

/// Verifies the points of a node's row that are nearer to it than the site, cut after the first k.
/// Returns how many places they fill.
fn look(
    site: Site<'_>,
    table: Table<'_>,
    node: usize,
    label: u32,
    flags: &mut [u32],
    inner: &mut [u32],
) -> usize {
    let from = node * table.places as usize;
    let row = from..from + site.k;
    let entries = table.ids[row.clone()].iter().zip(&table.distances[row]);
    let nearer = entries.take_while(|&(_, &far)| far < label);
    let mut found = 0;
    for (&p, &far) in nearer {
        verify_once(site, table, p, (label, far), flags, inner);
        found += 1;
    }
    found
}

/// Verifies a point, where the id is one and was not verified before, and flags it where it is listed.
fn verify_once(
    site: Site<'_>,
    table: Table<'_>,
    p: u32,
    way: (u32, u32),
    flags: &mut [u32],
    inner: &mut [u32],
) {
    let at = p as usize;
    if lockers_at(site.points, p) == 0 || flags[at] != 0 {
        return;
    }
    flags[at] = 1;
    if is_near(site, table, at, way) || site.verify(p, inner) {
        flags[site.points.len() + at] = 1;
    }
}

/// Whether the k-th other locker of a point is no nearer to it than the way over the node, which is
/// the site's label of the node and the point's distance from it.
fn is_near(site: Site<'_>, table: Table<'_>, p: usize, (label, far): (u32, u32)) -> bool {
    let last = table.distances[p * table.places as usize + site.k];
    u64::from(label) + u64::from(far) <= u64::from(last)
}
