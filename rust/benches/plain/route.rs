//! A route: eager's expansion from all of its nodes together. A point on the route is not verified, and
//! a verification ends at the first node of the route.
//!
//! Words of scratch: eager's. The verified flag of a node of the route is 2, and no visits are kept.

use super::area::Area;
use super::eager::Looks;
use super::site::{listed, refused, Site};
use overlap::calls::{Listing, Network, NONE};

#[inline(never)]
pub fn route(
    network: Network<'_>,
    points: &[u8],
    route: &[u32],
    k: u32,
    scratch: &mut [u32],
    answers: &mut [u32],
) -> Listing {
    // The q of a search from several nodes is none of them: nothing below asks for it.
    let site = Site {
        network,
        points,
        q: NONE,
        k: k as usize,
    };
    let number = number_of(site, route, scratch.len(), answers.len());
    if number != 0 {
        return refused(number);
    }
    scratch.fill(0);
    search(site, route, scratch, answers)
}

/// The first condition met of 1 to 7, 9, 10 and 14, or 0.
fn number_of(site: Site<'_>, route: &[u32], scratch: usize, answers: usize) -> u32 {
    let n = site.points.len();
    match site.points_number() {
        0 if route.iter().any(|&node| node as usize >= n) => 7,
        0 => match site.k_number(scratch, Site::s_words) {
            0 if answers < n => 10,
            0 if !is_route(site.network, route) => 14,
            number => number,
        },
        number => number,
    }
}

/// Whether there is a node, and each is joined by a road to the one after it.
fn is_route(network: Network<'_>, route: &[u32]) -> bool {
    let is_joined = |pair: &[u32]| has_road(network, pair[0] as usize, pair[1]);
    !route.is_empty() && route.windows(2).all(is_joined)
}

/// By halves, as the neighbours of a node rise.
fn has_road(network: Network<'_>, from: usize, to: u32) -> bool {
    let arcs = network.starts[from] as usize..network.starts[from + 1] as usize;
    network.neighbours[arcs].binary_search(&to).is_ok()
}

/// The verified flag of a node of the route.
const ON_ROUTE: u32 = 2;

/// Writes the list. The words are all zero before and after.
fn search(site: Site<'_>, route: &[u32], words: &mut [u32], answers: &mut [u32]) -> Listing {
    let n = site.points.len();
    let (flags, rest) = words.split_at_mut(2 * n);
    let (nodes, areas) = rest[n..].split_at_mut(n);
    let (inner, outer) = areas.split_at_mut(4 * n);
    let mut looks = Looks {
        flags,
        nodes,
        inner,
    };
    let mut area = Area::empty(outer, site.network);
    begin(route, looks.flags, &mut area);
    explore(site, &mut looks, &mut area);
    let listing = listed(&looks.flags[n..], answers, 0);
    area.clear();
    looks.flags.fill(0);
    listing
}

/// Marks each node of the route and lets it wait once.
fn begin(route: &[u32], flags: &mut [u32], area: &mut Area<'_>) {
    for &node in route {
        let flag = &mut flags[node as usize];
        if *flag == 0 {
            *flag = ON_ROUTE;
            area.begin_at(node);
        }
    }
}

/// Settles nodes by distance from the route, looks at each, and expands those with fewer than k lockers
/// nearer than the route.
fn explore(site: Site<'_>, looks: &mut Looks<'_>, area: &mut Area<'_>) {
    let is_on_route = |flags: &[u32], node: usize| flags[node] == ON_ROUTE;
    while let Some(entry) = area.next() {
        let lockers = looks.look(site, entry, is_on_route);
        area.settle(entry);
        if lockers < site.k {
            area.open(site.network, entry);
        }
    }
}
