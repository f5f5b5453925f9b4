//! Lazy-EP (000, 4.2): the points that the site's expansion has come to are expanded too, and a node
//! to which k of their lockers are nearer than the site is pruned.
//!
//! Words of scratch: found flags n, row ids n × k, row distances n × k, second queue 2 × k × A + 3 × n,
//! inner area 4 × n, outer area 4 × n. An empty place of a row has 0 as its distance word, another one
//! its distance plus one. The tag of an entry of the second queue is its point and then its node.

use super::area::Area;
use super::queue::{Entry, Queue};
use super::site::{listed, Lent, Site};
use overlap::calls::{Listing, Network};

#[inline(never)]
pub fn lazy_ep(
    network: Network<'_>,
    points: &[u8],
    q: u32,
    k: u32,
    scratch: &mut [u32],
    answers: &mut [u32],
) -> Listing {
    lazy_ep_and_settled(network, points, q, k, scratch, answers).0
}

/// The same, and how many nodes the expansion from q settled.
pub fn lazy_ep_and_settled(
    network: Network<'_>,
    points: &[u8],
    q: u32,
    k: u32,
    scratch: &mut [u32],
    answers: &mut [u32],
) -> (Listing, usize) {
    let site = Site {
        network,
        points,
        q,
        k: k as usize,
    };
    let lists = [answers];
    let lent = Lent { scratch, lists };
    let mut settled = 0;
    let listing = site.answer(lent, Site::s_words, |scratch, [answers]| {
        let (n, arcs) = site.sizes();
        let words = &mut scratch[..12 * n + 2 * site.k * (n + arcs)];
        settled = search(site, words);
        let listing = listed(&words[..n], answers, 0);
        words.fill(0);
        listing
    });
    (listing, settled)
}

/// Sets the found flags and returns how many nodes it settled.
fn search(site: Site<'_>, words: &mut [u32]) -> usize {
    let n = site.points.len();
    let (found, rest) = words.split_at_mut(n);
    let (rows, areas) = rest.split_at_mut(rest.len() - 8 * n);
    let (inner, outer) = areas.split_at_mut(4 * n);
    let mut second = Second::new(site, rows);
    let mut area = Area::start(outer, site.network, site.q);
    while let Some(entry) = area.next() {
        let (node, label) = (entry.node(), entry.distance);
        second.advance(site, label);
        if second.is_closed(site, node, label) || second.is_closed_parent(site, entry, &area) {
            continue;
        }
        if site.points[node] > 0 {
            found[node] = u32::from(site.verify(node as u32, inner));
            second.admit(site, Entry::new(0, node as u32, node as u32));
        }
        area.settle(entry);
        if !second.is_closed(site, node, label) {
            area.open(site.network, entry);
        }
    }
    area.settled().len()
}

/// The expansion of the points that were come to: k places for each node, and the queue.
struct Second<'a> {
    k: usize,
    ids: &'a mut [u32],
    distances: &'a mut [u32],
    queue: Queue<'a>,
}

impl<'a> Second<'a> {
    /// The words are all zero.
    fn new(site: Site<'_>, words: &'a mut [u32]) -> Self {
        let places = site.points.len() * site.k;
        let (ids, rest) = words.split_at_mut(places);
        let (distances, queue) = rest.split_at_mut(places);
        Self {
            k: site.k,
            ids,
            distances,
            queue: Queue::new(queue),
        }
    }

    /// Admits all entries below the label.
    fn advance(&mut self, site: Site<'_>, label: u32) {
        while self.queue.least().is_some_and(|least| least < label) {
            if let Some(entry) = self.queue.pop() {
                self.admit(site, entry);
            }
        }
    }

    /// Puts the point into the node's row where it lacks it and has a place for it, and pushes the
    /// neighbours.
    fn admit(&mut self, site: Site<'_>, entry: Entry) {
        let (p, node) = (entry.first() as u32, entry.second());
        if let Some(place) = self.place(p, node, entry.distance) {
            self.ids[place] = p;
            self.distances[place] = entry.distance + 1;
            self.push_neighbours(site.network, entry);
        }
    }

    /// The place for the point: an empty one, else the farthest if it is farther than the point.
    fn place(&self, p: u32, node: usize, distance: u32) -> Option<usize> {
        let mut farthest = node * self.k;
        for place in node * self.k..(node + 1) * self.k {
            if self.distances[place] == 0 {
                return Some(place);
            }
            if self.ids[place] == p {
                return None;
            }
            if self.distances[place] > self.distances[farthest] {
                farthest = place;
            }
        }
        (self.distances[farthest] > distance + 1).then_some(farthest)
    }

    /// Pushes an entry for each arc that leads to a node whose row has a place for the point by now,
    /// while there is room.
    fn push_neighbours(&mut self, network: Network<'_>, entry: Entry) {
        let (p, node) = (entry.first() as u32, entry.second());
        let arcs = network.starts[node] as usize..network.starts[node + 1] as usize;
        let weights = &network.weights[arcs.clone()];
        for (&to, &weight) in network.neighbours[arcs].iter().zip(weights) {
            let distance = entry.distance + weight;
            if self.place(p, to as usize, distance).is_some() && self.queue.has_room() {
                self.queue.push(Entry::new(distance, p, to));
            }
        }
    }

    /// Whether the points of the row that are nearer than the label have k lockers. An empty place
    /// ends the row.
    fn is_closed(&self, site: Site<'_>, node: usize, label: u32) -> bool {
        let row = node * self.k..(node + 1) * self.k;
        let mut lockers = 0;
        for (&p, &word) in self.ids[row.clone()].iter().zip(&self.distances[row]) {
            if word == 0 || lockers >= self.k {
                break;
            }
            if word <= label {
                lockers += usize::from(site.points[p as usize]);
            }
        }
        lockers >= self.k
    }

    /// Whether the node that put the entry in is closed by now.
    fn is_closed_parent(&self, site: Site<'_>, entry: Entry, area: &Area<'_>) -> bool {
        let label = area.label(entry.parent());
        label.is_some_and(|label| self.is_closed(site, entry.parent(), label))
    }
}
