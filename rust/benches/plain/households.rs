//! The households that a site wins: eager's expansion, without the verification of points.
//!
//! Words of scratch: flags n, found nodes n, inner area 4 × n, outer area 4 × n.

use super::area::Area;
use super::nearest::find_nodes;
use super::queue::Entry;
use super::sheet::bytes_number;
use super::site::{listed, refused, Site};
use overlap::calls::{Listing, Network};

#[inline(never)]
pub fn households(
    network: Network<'_>,
    households: &[u8],
    sites: &[u8],
    q: u32,
    k: u32,
    scratch: &mut [u32],
    answers: &mut [u32],
) -> Listing {
    let site = Site {
        network,
        points: sites,
        q,
        k: k as usize,
    };
    let number = number_of(site, households, scratch.len(), answers.len());
    if number != 0 {
        return refused(number);
    }
    scratch.fill(0);
    search(site, households, scratch, answers)
}

/// The first condition met of 1 to 7, 9 and 10, or 0.
fn number_of(site: Site<'_>, households: &[u8], scratch: usize, answers: usize) -> u32 {
    let of_bytes = bytes_number(site.network, households, site.points);
    if of_bytes != 0 {
        of_bytes
    } else if site.q as usize >= site.points.len() {
        7
    } else {
        match site.k_number(scratch, Site::s_words) {
            0 if answers < site.points.len() => 10,
            number => number,
        }
    }
}

/// Writes the list. The words are all zero before and after.
fn search(site: Site<'_>, households: &[u8], words: &mut [u32], answers: &mut [u32]) -> Listing {
    let n = site.points.len();
    let (flags, rest) = words.split_at_mut(n);
    let (nodes, areas) = rest.split_at_mut(n);
    let (inner, outer) = areas.split_at_mut(4 * n);
    let mut area = Area::start(outer, site.network, site.q);
    while let Some(entry) = area.next() {
        area.settle(entry);
        if sites_nearer(site, entry, nodes, inner) < site.k {
            flags[entry.node()] = u32::from(households[entry.node()] > 0);
            area.open(site.network, entry);
        }
    }
    let listing = listed(flags, answers, 0);
    area.clear();
    flags.fill(0);
    listing
}

/// How many sites are nearer to a node than q, cut at k. Nodes and words are all zero before and after.
fn sites_nearer(site: Site<'_>, entry: Entry, nodes: &mut [u32], inner: &mut [u32]) -> usize {
    let from = (entry.node() as u32, entry.distance);
    let near = find_nodes(site, from, nodes, inner);
    nodes[..near.nodes].fill(0);
    near.lockers
}
