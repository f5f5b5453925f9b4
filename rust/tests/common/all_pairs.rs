//! All distances of a small network, by a plain all-pairs calculation in 64-bit numbers, and what
//! document 01 says by them.

use super::rows::{distances_in, expanded_in, household_in, in_order, nearest_in, verify_in};
use super::rows::{Near, Row};
use overlap::calls::Network;
use std::collections::BTreeSet;

/// The row of each node.
pub struct AllPairs {
    rows: Vec<Row>,
}

impl AllPairs {
    /// "d(a, b) is the smallest sum of weights over all walks from a to b; d(a, a) = 0; without a
    /// walk b can't be reached." The network is an accepted one.
    ///
    /// Floyd and Warshall: behind the round of a node, an entry is the smallest sum over the walks
    /// that pass through no node above it.
    pub fn of(network: Network<'_>) -> Self {
        let mut rows = single_arcs(network);
        for via in 0..rows.len() {
            let onward = rows[via].clone();
            for row in &mut rows {
                pass_through(row, via, &onward);
            }
        }
        Self { rows }
    }

    pub fn row(&self, node: u32) -> &Row {
        &self.rows[node as usize]
    }

    /// "Distances from a node: n entries, NONE where none."
    pub fn plain_distances(&self, node: u32) -> Vec<u32> {
        distances_in(self.row(node))
    }

    /// "Nearest: the points p with d(node, p) < e, e any 32-bit number, by distance then node, cut
    /// after the first k".
    pub fn plain_nearest(&self, points: &[u8], node: u32, e: u32, k: u32) -> Vec<Near> {
        nearest_in(self.row(node), points, e, k)
    }

    /// "Verify: for a marked p and q, yes or no by the rule above."
    pub fn plain_verify(&self, points: &[u8], p: u32, q: u32, k: u32) -> bool {
        verify_in(self.row(p), points, p, q, k)
    }

    /// The points that are listed for q and k. "Lists are ascending by node." Ask 8: "A node is
    /// listed once, as its lockers fare alike."
    pub fn plain_listed(&self, points: &[u8], q: u32, k: u32) -> Vec<u32> {
        let is_listed = |&p: &u32| points[p as usize] > 0 && self.plain_verify(points, p, q, k);
        self.nodes().filter(is_listed).collect()
    }

    /// "the number of nodes m that can be reached from q and have fewer than k points p (one on m
    /// included) with d(m, p) < d(m, q)".
    pub fn plain_expanded(&self, points: &[u8], q: u32, k: u32) -> u32 {
        self.plain_visits(points, q, k).len() as u32
    }

    /// Ask 4: "the nodes that its count counts, by distance from the site and then by node".
    pub fn plain_visits(&self, points: &[u8], q: u32, k: u32) -> Vec<u32> {
        let is_counted = |&m: &u32| expanded_in(self.row(m), points, q, k);
        in_order(self.row(q), self.nodes().filter(is_counted))
    }

    /// Ask 1: the nodes whose households are listed for q and k. Ask 8: "A node is listed once".
    pub fn plain_households(&self, households: &[u8], sites: &[u8], q: u32, k: u32) -> Vec<u32> {
        let is_listed =
            |&h: &u32| households[h as usize] > 0 && household_in(self.row(h), sites, q, k);
        self.nodes().filter(is_listed).collect()
    }

    /// Ask 1: "for each node, the length of the list of a site there, 0 without a site". Ask 8: "A
    /// sheet's length counts each household on a listed node."
    pub fn plain_sheet(&self, households: &[u8], sites: &[u8]) -> Vec<u32> {
        self.sheet_with(households, sites, SHEET_K)
    }

    /// The same with any k.
    pub fn sheet_with(&self, households: &[u8], sites: &[u8], k: u32) -> Vec<u32> {
        let entry = |q: u32| match sites[q as usize] {
            0 => 0,
            _ => counted(households, &self.plain_households(households, sites, q, k)),
        };
        self.nodes().map(entry).collect()
    }

    /// Ask 7: "Listed is the union of what the single nodes receive, without the points that stand on the
    /// route itself." What a node receives is the list of a site there.
    pub fn plain_touched(&self, points: &[u8], route: &[u32], k: u32) -> Vec<u32> {
        let stops: BTreeSet<u32> = route.iter().copied().collect();
        let received = stops.iter().map(|&q| self.plain_listed(points, q, k));
        let union: BTreeSet<u32> = received.flatten().collect();
        union.difference(&stops).copied().collect()
    }

    fn nodes(&self) -> std::ops::Range<u32> {
        0..self.rows.len() as u32
    }
}

/// Ask 10: "existing sheets must compare, so the sheet now names 1 itself."
pub const SHEET_K: u32 = 1;

/// How many households are on these nodes.
pub fn counted(households: &[u8], list: &[u32]) -> u32 {
    let on_node = |&h: &u32| u32::from(households[h as usize]);
    list.iter().map(on_node).sum()
}

/// The rows by walks of at most one arc.
fn single_arcs(network: Network<'_>) -> Vec<Row> {
    let n = network.starts.len() - 1;
    let mut rows = vec![vec![None; n]; n];
    for (node, row) in rows.iter_mut().enumerate() {
        row[node] = Some(0);
        for arc in network.starts[node] as usize..network.starts[node + 1] as usize {
            row[network.neighbours[arc] as usize] = Some(u64::from(network.weights[arc]));
        }
    }
    rows
}

/// Makes each entry the smaller of itself and the way through `via`, whose own row is `onward`.
fn pass_through(row: &mut Row, via: usize, onward: &Row) {
    let Some(there) = row[via] else {
        return;
    };
    for (entry, &rest) in row.iter_mut().zip(onward) {
        if let Some(rest) = rest {
            let sum = there + rest;
            *entry = Some(entry.map_or(sum, |known| known.min(sum)));
        }
    }
}
