//! Lazy (000, 3.3): the verification of a point prunes the nodes that it visits nearer than the site
//! is.
//!
//! Words of scratch: counts n, found flags n, inner area 4 × n, outer area 4 × n.

use super::area::Area;
use super::queue::Entry;
use super::site::{listed, Lent, Site};
use overlap::calls::{Listing, Network};

#[inline(never)]
pub fn lazy(
    network: Network<'_>,
    points: &[u8],
    q: u32,
    k: u32,
    scratch: &mut [u32],
    answers: &mut [u32],
) -> Listing {
    lazy_and_settled(network, points, q, k, scratch, answers).0
}

/// The same, and how many nodes the expansion from q settled.
pub fn lazy_and_settled(
    network: Network<'_>,
    points: &[u8],
    q: u32,
    k: u32,
    scratch: &mut [u32],
    answers: &mut [u32],
) -> (Listing, usize) {
    let site = Site {
        network,
        points,
        q,
        k: k as usize,
    };
    let lists = [answers];
    let lent = Lent { scratch, lists };
    let mut settled = 0;
    let listing = site.answer(lent, Site::s_words, |scratch, [answers]| {
        let n = points.len();
        let words = &mut scratch[..10 * n];
        settled = search(site, words);
        let listing = listed(&words[n..2 * n], answers, 0);
        words.fill(0);
        listing
    });
    (listing, settled)
}

/// Sets the found flags and returns how many nodes it settled.
fn search(site: Site<'_>, words: &mut [u32]) -> usize {
    let n = site.points.len();
    let (flags, areas) = words.split_at_mut(2 * n);
    let (counts, found) = flags.split_at_mut(n);
    let (inner, outer) = areas.split_at_mut(4 * n);
    let mut area = Area::start(outer, site.network, site.q);
    while let Some(entry) = area.next() {
        if is_pruned(site, entry, counts) {
            continue;
        }
        let node = entry.node();
        let lockers = u32::from(site.points[node]);
        if lockers > 0 {
            let (yes, visit) = site.visit(node as u32, inner);
            found[node] = u32::from(yes);
            count_visit((entry.distance, lockers), &visit, &area, counts);
            visit.clear();
        }
        area.settle(entry);
        if (counts[node] as usize) < site.k {
            area.open(site.network, entry);
        }
    }
    area.settled().len()
}

/// Whether k lockers are nearer than the site to the entry's node, or to the node that put it in.
fn is_pruned(site: Site<'_>, entry: Entry, counts: &[u32]) -> bool {
    let is_closed = |node: usize| counts[node] as usize >= site.k;
    is_closed(entry.node()) || is_closed(entry.parent())
}

/// Counts the point's lockers for each node that its visit settled nearer than the site is, as far as
/// the site's expansion has come to this label.
fn count_visit(
    (label, lockers): (u32, u32),
    visit: &Area<'_>,
    area: &Area<'_>,
    counts: &mut [u32],
) {
    for &node in visit.settled() {
        let node = node as usize;
        if visit.label(node) < Some(area.label(node).unwrap_or(label)) {
            counts[node] += lockers;
        }
    }
}
