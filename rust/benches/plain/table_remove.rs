//! Removal of a locker from the table.
//!
//! Words of scratch: short flags n, queue 2 × (n + A), and n that are cleared beside them, as the engine
//! lends removal what insertion needs too. The tag of an entry is its point and then its node.

use super::queue::{Entry, Queue};
use super::site::lockers_at;
use super::table::{among, change_number, row};
use overlap::calls::{Network, TableMut, Update, NONE};

#[inline(never)]
pub fn remove(
    network: Network<'_>,
    points: &mut [u8],
    node: u32,
    scratch: &mut [u32],
    mut table: TableMut<'_>,
) -> Update {
    let number = change_number(network, points, (node, 0), scratch.len(), &table);
    if number != 0 {
        return Update { number, changed: 0 };
    }
    let (n, arcs) = (points.len(), network.neighbours.len());
    let used = 4 * n + 2 * arcs;
    scratch.fill(0);
    let all = lockers_at(points, node);
    points[node as usize] -= 1;
    let (short, words) = scratch[..used].split_at_mut(n);
    let changed = free(node, all, short, &mut table);
    let mut queue = Queue::new(words);
    seed(network, points, short, &mut queue, &table);
    fill(network, points, short, &mut queue, &mut table);
    scratch[..used].fill(0);
    Update { number, changed }
}

/// Takes one locker of a point out of each row that shows all of them, as one that shows fewer is cut
/// and stays, and flags the row as short. Returns how many.
fn free(p: u32, all: usize, short: &mut [u32], table: &mut TableMut<'_>) -> u32 {
    let mut changed = 0;
    for (node, flag) in short.iter_mut().enumerate() {
        let (ids, distances) = row(table, node);
        if among(ids, p) == all {
            let place = ids.iter().position(|&id| id == p).unwrap();
            take_at(ids, place);
            take_at(distances, place);
            *flag = 1;
            changed += 1;
        }
    }
    changed
}

fn take_at(row: &mut [u32], place: usize) {
    row.copy_within(place + 1.., place);
    *row.last_mut().unwrap() = NONE;
}

/// Offers each short row the best entry that its neighbours' rows hold and it lacks.
fn seed(
    network: Network<'_>,
    points: &[u8],
    short: &[u32],
    queue: &mut Queue<'_>,
    table: &TableMut<'_>,
) {
    for (node, &flag) in short.iter().enumerate() {
        if flag == 1 {
            let (distance, p) = best(network, points, table, node);
            if distance != NONE {
                queue.push(Entry::new(distance, p, node as u32));
            }
        }
    }
}

/// The least distance and point that a neighbour's row offers to this one.
fn best(network: Network<'_>, points: &[u8], table: &TableMut<'_>, node: usize) -> (u32, u32) {
    let places = table.places as usize;
    let part = |node: usize| node * places..(node + 1) * places;
    let own = &table.ids[part(node)];
    let mut best = (NONE, 0);
    let arcs = network.starts[node] as usize..network.starts[node + 1] as usize;
    let weights = &network.weights[arcs.clone()];
    for (&to, &weight) in network.neighbours[arcs].iter().zip(weights) {
        let (ids, distances) = (
            &table.ids[part(to as usize)],
            &table.distances[part(to as usize)],
        );
        for (&p, &far) in ids.iter().zip(distances) {
            let is_new = |offer| offer < best && lacks(points, own, p);
            if far <= LARGEST && is_new((far + weight, p)) {
                best = (far + weight, p);
            }
        }
    }
    best
}

/// The largest number that can be a distance.
const LARGEST: u32 = 4_294_770_690;

/// Whether a row shows fewer lockers of a point than it has.
fn lacks(points: &[u8], ids: &[u32], p: u32) -> bool {
    among(ids, p) < lockers_at(points, p)
}

/// Takes the least offer out until none waits. A short row that lacks a locker of the point takes one
/// and is short no more, and its short neighbours are offered the point.
fn fill(
    network: Network<'_>,
    points: &[u8],
    short: &mut [u32],
    queue: &mut Queue<'_>,
    table: &mut TableMut<'_>,
) {
    while let Some(entry) = queue.pop() {
        let (p, node) = (entry.first() as u32, entry.second());
        if short[node] == 0 || entry.distance > LARGEST {
            continue;
        }
        let (ids, distances) = row(table, node);
        if !lacks(points, ids, p) {
            continue;
        }
        *ids.last_mut().unwrap() = p;
        *distances.last_mut().unwrap() = entry.distance;
        short[node] = 0;
        let arcs = network.starts[node] as usize..network.starts[node + 1] as usize;
        let weights = &network.weights[arcs.clone()];
        for (&to, &weight) in network.neighbours[arcs].iter().zip(weights) {
            if short[to as usize] == 1 {
                queue.push(Entry::new(entry.distance + weight, p, to));
            }
        }
    }
}
