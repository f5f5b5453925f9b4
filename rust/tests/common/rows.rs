//! The distances of one node, and what document 01 says by them alone.

use overlap::calls::{Network, NONE};
use std::collections::VecDeque;

/// Document 01: "Every distance is at most 4,294,770,690."
pub const LARGEST_DISTANCE: u64 = 4_294_770_690;

/// The distance of one node to each node, nothing where a node can't be reached.
pub type Row = Vec<Option<u64>>;

/// A point, named by its node, and its distance.
pub type Near = (u32, u32);

/// The row that an array of distances stands for: "NONE [...] stands for "can't be reached"".
pub fn row_of(distances: &[u32]) -> Row {
    let entry = |&distance: &u32| (distance != NONE).then_some(u64::from(distance));
    distances.iter().map(entry).collect()
}

/// "n entries, NONE where none".
pub fn distances_in(row: &Row) -> Vec<u32> {
    let word = |entry: &Option<u64>| entry.map_or(NONE, distance_word);
    row.iter().map(word).collect()
}

fn distance_word(distance: u64) -> u32 {
    assert!(distance <= LARGEST_DISTANCE);
    distance as u32
}

/// The row's node has "the points p with d(node, p) < e, e any 32-bit number, by distance then
/// node, cut after the first k". Ask 8: "Rows and the nearest call repeat a node for each locker".
pub fn nearest_in(row: &Row, points: &[u8], e: u32, k: u32) -> Vec<Near> {
    let mut found: Vec<(u64, usize)> = nearer_nodes(row, points, u64::from(e)).collect();
    found.sort_unstable();
    let lockers = found.iter().flat_map(|&(distance, p)| {
        let near = (p as u32, distance_word(distance));
        std::iter::repeat_n(near, points[p].into())
    });
    lockers.take(k as usize).collect()
}

/// Whether the answer of a nearest call, or a row, has a node for several lockers.
pub fn repeats_a_node(found: &[Near]) -> bool {
    let mut pairs = found.windows(2);
    pairs.any(|pair| pair[0] == pair[1] && pair[0].0 != NONE)
}

/// Whether it is cut in the midst of a node's lockers.
pub fn is_cut_in_a_node(found: &[Near], points: &[u8]) -> bool {
    let shown = |last: &Near| found.iter().filter(|near| *near == last).count();
    let last = found.last().filter(|last| last.0 != NONE);
    last.is_some_and(|last| shown(last) < points[last.0 as usize].into())
}

/// The row is that of p: "point p is listed if it can be reached from q and fewer than k other
/// points p' have d(p, p') < d(p, q). The point p itself doesn't count." Each road is two arcs, so
/// p can be reached from q where q can be from p.
///
/// Ask 6: "The lease edition now says that a point on q isn't listed." "Verify of the point on q says
/// no."
///
/// Ask 8: "Each counts, so a locker has its companions on the node as others at distance 0": the
/// others are all lockers but one on p.
pub fn verify_in(row: &Row, points: &[u8], p: u32, q: u32, k: u32) -> bool {
    if p == q {
        return false;
    }
    let Some(to_q) = row[q as usize] else {
        return false;
    };
    let mut others = points.to_vec();
    others[p as usize] = others[p as usize].saturating_sub(1);
    lockers_nearer(row, &others, to_q) < k as usize
}

/// The row is that of m, which is counted if it "can be reached from q" and has "fewer than k
/// points p (one on m included) with d(m, p) < d(m, q)".
pub fn expanded_in(row: &Row, points: &[u8], q: u32, k: u32) -> bool {
    let Some(to_q) = row[q as usize] else {
        return false;
    };
    lockers_nearer(row, points, to_q) < k as usize
}

/// The row is that of a household. Ask 1: "A household is listed for q exactly if it can be reached and
/// fewer than k sites are strictly nearer to it than q". Ask 8: lockers count, "as Ask 1 counts
/// households and sites".
pub fn household_in(row: &Row, sites: &[u8], q: u32, k: u32) -> bool {
    let Some(to_q) = row[q as usize] else {
        return false;
    };
    lockers_nearer(row, sites, to_q) < k as usize
}

/// The row is that of the site: these nodes "by distance from the site and then by node".
pub fn in_order(row: &Row, nodes: impl Iterator<Item = u32>) -> Vec<u32> {
    let mut visits: Vec<_> = nodes.map(|m| (row[m as usize], m)).collect();
    visits.sort_unstable();
    visits.into_iter().map(|(_, m)| m).collect()
}

/// How many lockers have a distance strictly below the bound.
fn lockers_nearer(row: &Row, points: &[u8], bound: u64) -> usize {
    let nodes = nearer_nodes(row, points, bound);
    nodes.map(|(_, p)| usize::from(points[p])).sum()
}

/// The nodes with a locker whose distance is strictly below the bound, each with its distance.
fn nearer_nodes<'a>(
    row: &'a Row,
    points: &'a [u8],
    bound: u64,
) -> impl Iterator<Item = (u64, usize)> + 'a {
    let marked = (0..row.len()).filter(|&p| points[p] > 0);
    let reached = marked.filter_map(|p| row[p].map(|distance| (distance, p)));
    reached.filter(move |&(distance, _)| distance < bound)
}

/// The row of a node of an accepted network that may be too large for all pairs, by repeated
/// relaxation: an entry that becomes smaller is handed on to its neighbours, until none does.
pub fn relaxed_row(network: Network<'_>, node: u32) -> Row {
    relaxed_row_of(network, &[node])
}

/// The same of several nodes: the distance to the nearest of them.
pub fn relaxed_row_of(network: Network<'_>, nodes: &[u32]) -> Row {
    let mut row = vec![None; network.starts.len() - 1];
    for &node in nodes {
        row[node as usize] = Some(0);
    }
    let mut smaller: VecDeque<usize> = nodes.iter().map(|&node| node as usize).collect();
    while let Some(a) = smaller.pop_front() {
        for arc in network.starts[a] as usize..network.starts[a + 1] as usize {
            let b = network.neighbours[arc] as usize;
            let sum = row[a].map(|to_a: u64| to_a + u64::from(network.weights[arc]));
            if row[b].is_none() || sum < row[b] {
                row[b] = sum;
                smaller.push_back(b);
            }
        }
    }
    row
}
