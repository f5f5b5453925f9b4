//! Eager (000, Fig. 4), with one area for all inner expansions, and the short query, which is eager
//! without the copy of the visits.
//!
//! Words of scratch: verified flags n, found flags n, visits n, found nodes n, inner area 4 × n, outer
//! area 4 × n.

use super::area::Area;
use super::nearest::find_nodes;
use super::queue::Entry;
use super::site::{listed, refused, Lent, Site};
use overlap::calls::{Listing, Network};

#[inline(never)]
#[allow(clippy::too_many_arguments)] // They are those of the engine's call.
pub fn eager(
    network: Network<'_>,
    points: &[u8],
    q: u32,
    k: u32,
    limit: u32,
    scratch: &mut [u32],
    answers: &mut [u32],
    visits: &mut [u32],
) -> Listing {
    let site = Site {
        network,
        points,
        q,
        k: k as usize,
    };
    let lists = [answers, visits];
    let lent = Lent { scratch, lists };
    site.answer(lent, Site::eager_words, |words, [answers, visits]| {
        let copy = |kept: &[u32]| visits[..kept.len()].copy_from_slice(kept);
        search(site, limit, words, answers, copy)
    })
}

/// The k of the short query (Ask 10).
const SHORT_K: usize = 2;

/// Eager with this k and limit 65,535, without the visits.
#[inline(never)]
pub fn short_query(
    network: Network<'_>,
    points: &[u8],
    q: u32,
    scratch: &mut [u32],
    answers: &mut [u32],
) -> Listing {
    let site = Site {
        network,
        points,
        q,
        k: SHORT_K,
    };
    let lists = [answers];
    let lent = Lent { scratch, lists };
    site.answer(lent, Site::eager_words, |words, [answers]| {
        search(site, 65_535, words, answers, |_| ())
    })
}

/// Writes the list and hands out the visits, unless it is refused. The words are all zero before and
/// after.
fn search(
    site: Site<'_>,
    limit: u32,
    words: &mut [u32],
    answers: &mut [u32],
    take_visits: impl FnOnce(&[u32]),
) -> Listing {
    let n = site.points.len();
    let (flags, rest) = words.split_at_mut(2 * n);
    let (visits, rest) = rest.split_at_mut(n);
    let (nodes, areas) = rest.split_at_mut(n);
    let (inner, outer) = areas.split_at_mut(4 * n);
    let mut looks = Looks {
        flags,
        nodes,
        inner,
    };
    let mut area = Area::start(outer, site.network, site.q);
    let listing = match explore(site, limit, &mut looks, &mut area, visits) {
        Some(count) => {
            take_visits(&visits[..count as usize]);
            listed(&looks.flags[n..], answers, count)
        }
        None => refused(12),
    };
    area.clear();
    looks.flags.fill(0);
    visits.fill(0);
    listing
}

/// Settles nodes by distance from the site and then by node, looks at each, and expands those with
/// fewer than k lockers nearer than the site. These are the visits. Returns how many they are, unless
/// that is more than the limit.
fn explore(
    site: Site<'_>,
    limit: u32,
    looks: &mut Looks<'_>,
    area: &mut Area<'_>,
    visits: &mut [u32],
) -> Option<u32> {
    let mut count = 0;
    let is_site = |_: &[u32], node: usize| node == site.q as usize;
    while let Some(entry) = area.next() {
        let lockers = looks.look(site, entry, is_site);
        if lockers < site.k && count == limit {
            return None;
        }
        area.settle(entry);
        if lockers < site.k {
            area.open(site.network, entry);
            visits[count as usize] = entry.node() as u32;
            count += 1;
        }
    }
    Some(count)
}

/// The words that looks share: verified flags n and found flags n, found nodes n, inner area 4 × n.
pub struct Looks<'a> {
    pub flags: &'a mut [u32],
    pub nodes: &'a mut [u32],
    pub inner: &'a mut [u32],
}

impl Looks<'_> {
    /// Finds the nodes with the k nearest lockers that are nearer to a node than the site, and verifies
    /// each once. The site may be several nodes; whether a node is one is told by the flags. Returns how
    /// many lockers, cut at k.
    pub fn look(
        &mut self,
        site: Site<'_>,
        entry: Entry,
        is_site: impl Fn(&[u32], usize) -> bool,
    ) -> usize {
        let from = (entry.node() as u32, entry.distance);
        let near = find_nodes(site, from, self.nodes, self.inner);
        let nodes = &mut self.nodes[..near.nodes];
        for &p in nodes.iter() {
            let at = p as usize;
            if self.flags[at] == 0 {
                self.flags[at] = 1;
                let yes = site.verify_from(p, self.inner, |node| is_site(self.flags, node));
                self.flags[site.points.len() + at] = u32::from(yes);
            }
        }
        nodes.fill(0);
        near.lockers
    }
}
