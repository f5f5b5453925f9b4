//! The nearest points of each node of a network that may be too large for all pairs, and by them the
//! lists of document 01, the visits of Ask 4, the households of Ask 1 and the routes of Ask 7.

use super::rows::{in_order, relaxed_row, relaxed_row_of, Row};
use overlap::calls::Network;
use std::cmp::Reverse;
use std::collections::{BTreeSet, BinaryHeap};

/// A distance and the point that is so far.
pub type Far = (u64, u32);

/// For each node the points that can be reached from it, by distance then node, each node once, cut
/// behind the one with which `most` lockers are reached.
pub struct NearestRows {
    most: usize,
    points: Vec<u8>,
    rows: Vec<Vec<Far>>,
}

impl NearestRows {
    /// By repeated relaxation: what comes into a row is handed on to the neighbours, until nothing
    /// does. The nearest goes first, so that little comes into a row in vain. The network is an
    /// accepted one.
    pub fn of(network: Network<'_>, points: &[u8], most: usize) -> Self {
        let mut nearest = Self {
            most,
            points: points.to_vec(),
            rows: vec![vec![]; points.len()],
        };
        let marked = (0..points.len()).filter(|&p| points[p] > 0);
        let own = marked.map(|p| Reverse(((0, p as u32), p)));
        let mut handed: BinaryHeap<Reverse<(Far, usize)>> = own.collect();
        while let Some(Reverse((far, node))) = handed.pop() {
            if nearest.takes(node, far) {
                for arc in network.starts[node] as usize..network.starts[node + 1] as usize {
                    let sum = far.0 + u64::from(network.weights[arc]);
                    handed.push(Reverse(((sum, far.1), network.neighbours[arc] as usize)));
                }
            }
        }
        nearest
    }

    /// Puts a point into a row, unless the row has it as near or has enough that come before it.
    fn takes(&mut self, node: usize, far: Far) -> bool {
        let row = &mut self.rows[node];
        if row.iter().any(|old| old.1 == far.1 && old.0 <= far.0) {
            return false;
        }
        row.retain(|old| old.1 != far.1);
        row.push(far);
        row.sort_unstable();
        let mut before = 0;
        row.retain(|old| {
            let has_room = before < self.most;
            before += usize::from(self.points[old.1 as usize]);
            has_room
        });
        row.contains(&far)
    }

    /// The row, a node for each of its lockers, cut after the first `most`.
    pub fn row(&self, node: u32) -> Vec<Far> {
        let nodes = self.rows[node as usize].iter();
        let lockers = nodes.flat_map(|&far| std::iter::repeat_n(far, self.lockers(far.1)));
        lockers.take(self.most).collect()
    }

    fn lockers(&self, node: u32) -> usize {
        self.points[node as usize].into()
    }

    /// The points that are listed for q, whose row of distances is given, and k: "it can be reached
    /// from q and fewer than k other points p' have d(p, p') < d(p, q)". Ask 6: "a point on q isn't
    /// listed", and no other is at distance 0.
    pub fn listed(&self, from_q: &Row, k: u32) -> Vec<u32> {
        assert!(self.most > k as usize);
        let is_listed = |&p: &u32| {
            // One locker on p is nearer than q and is no other.
            let others = |to_q| self.nearer(p, to_q) - 1;
            let apart = from_q[p as usize].filter(|&to_q| to_q > 0);
            self.lockers(p) > 0 && apart.is_some_and(|to_q| others(to_q) < k as usize)
        };
        self.nodes().filter(is_listed).collect()
    }

    /// Ask 4: "the nodes that its count counts, by distance from the site and then by node", the
    /// nodes m "that can be reached from q and have fewer than k points p (one on m included) with
    /// d(m, p) < d(m, q)".
    pub fn visits(&self, from_q: &Row, k: u32) -> Vec<u32> {
        assert!(self.most >= k as usize);
        let is_counted =
            |&m: &u32| from_q[m as usize].is_some_and(|to_q| self.nearer(m, to_q) < k as usize);
        in_order(from_q, self.nodes().filter(is_counted))
    }

    /// Ask 1: the nodes whose households are listed for q, whose row of distances is given, and k. The
    /// points are the sites.
    pub fn households(&self, from_q: &Row, households: &[u8], k: u32) -> Vec<u32> {
        assert!(self.most >= k as usize);
        let is_listed = |&h: &u32| {
            let nearer = from_q[h as usize].map(|to_q| self.nearer(h, to_q));
            households[h as usize] > 0 && nearer.is_some_and(|sites| sites < k as usize)
        };
        self.nodes().filter(is_listed).collect()
    }

    /// Ask 7: "the union of what the single nodes receive, without the points that stand on the route
    /// itself", by the row of each node.
    pub fn touched(&self, network: Network<'_>, route: &[u32], k: u32) -> Vec<u32> {
        let stops: BTreeSet<u32> = route.iter().copied().collect();
        let received = stops
            .iter()
            .map(|&q| self.listed(&relaxed_row(network, q), k));
        let union: BTreeSet<u32> = received.flatten().collect();
        union.difference(&stops).copied().collect()
    }

    /// The same by one row for all nodes together, which Ask 7 says it is: "One search from all nodes
    /// together must equal that union". A node is as far as the nearest of the route.
    pub fn touched_together(&self, network: Network<'_>, route: &[u32], k: u32) -> Vec<u32> {
        self.listed(&relaxed_row_of(network, route), k)
    }

    /// How many lockers of the node's row are nearer than the bound.
    fn nearer(&self, node: u32, bound: u64) -> usize {
        let nodes = self.rows[node as usize].iter();
        let nearer = nodes.filter(|far| far.0 < bound);
        nearer.map(|far| self.lockers(far.1)).sum()
    }

    fn nodes(&self) -> std::ops::Range<u32> {
        0..self.rows.len() as u32
    }
}
