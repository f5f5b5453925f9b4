//! Nearest: the points nearer to a node than e, by distance then node, a node for each of its lockers,
//! cut after the first k.
//!
//! Words of scratch: found nodes k, ids k, distances k, area.

use super::area::Area;
use super::site::{refused, Site};
use overlap::calls::{Found, Listing, Network};

#[inline(never)]
pub fn nearest(
    network: Network<'_>,
    points: &[u8],
    node: u32,
    e: u32,
    k: u32,
    scratch: &mut [u32],
    found: Found<'_>,
) -> Listing {
    let k = k as usize;
    let site = Site {
        network,
        points,
        q: node,
        k,
    };
    let mut number = site.number(scratch.len(), Site::s_words);
    if number == 0 && found.ids.len().min(found.distances.len()) < k {
        number = 10;
    }
    if number != 0 {
        return refused(number);
    }
    scratch.fill(0);
    let length = write(site, e, scratch, found);
    scratch[..3 * k].fill(0);
    Listing {
        number,
        count: 0,
        length,
    }
}

/// Writes the points found. The words are all zero before, and all but the first 3 × k behind it.
fn write(site: Site<'_>, e: u32, words: &mut [u32], found: Found<'_>) -> usize {
    let (nodes, rest) = words.split_at_mut(site.k);
    let (ids, rest) = rest.split_at_mut(site.k);
    let (distances, words) = rest.split_at_mut(site.k);
    let (near, area) = find(site, (site.q, e), nodes, words);
    repeat(site, &nodes[..near.nodes], &area, (ids, distances));
    area.clear();
    let length = near.lockers;
    found.ids[..length].copy_from_slice(&ids[..length]);
    found.distances[..length].copy_from_slice(&distances[..length]);
    length
}

/// Writes each node and its label once for each of its lockers, up to k places.
fn repeat(
    site: Site<'_>,
    nodes: &[u32],
    area: &Area<'_>,
    (ids, distances): (&mut [u32], &mut [u32]),
) {
    let mut at = 0;
    for &node in nodes {
        let label = area.label(node as usize).unwrap();
        let end = site.k.min(at + usize::from(site.points[node as usize]));
        while at < end {
            ids[at] = node;
            distances[at] = label;
            at += 1;
        }
    }
}

/// What is found: how many nodes, and how many lockers on them, cut at k.
pub struct Near {
    pub nodes: usize,
    pub lockers: usize,
}

/// Finds the nodes with the k nearest lockers that are nearer to a node than e. The area is all zero
/// before and after.
pub fn find_nodes(site: Site<'_>, from: (u32, u32), nodes: &mut [u32], words: &mut [u32]) -> Near {
    let (near, area) = find(site, from, nodes, words);
    area.clear();
    near
}

/// Settles nodes by rising distance from a node while it is below e and fewer than k lockers are
/// found. What it settles stays in the area.
fn find<'a>(
    site: Site<'_>,
    (node, e): (u32, u32),
    nodes: &mut [u32],
    words: &'a mut [u32],
) -> (Near, Area<'a>) {
    let mut area = Area::start(words, site.network, node);
    let mut near = Near {
        nodes: 0,
        lockers: 0,
    };
    while near.lockers < site.k {
        let Some(entry) = area.next().filter(|entry| entry.distance < e) else {
            break;
        };
        area.settle(entry);
        area.open(site.network, entry);
        let lockers = usize::from(site.points[entry.node()]);
        if lockers > 0 {
            nodes[near.nodes] = entry.node() as u32;
            near.nodes += 1;
        }
        near.lockers = site.k.min(near.lockers + lockers);
    }
    (near, area)
}
