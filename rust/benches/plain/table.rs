//! The table: build and insert, and the checks of all its calls.
//!
//! Words of scratch of build: the length of each row n, queue 2 × (n + K × A). The tag of an entry is
//! its point and then its node. Those of insert: an area.

use super::area::Area;
use super::network_check;
use super::queue::{Entry, Queue};
use super::site::{are_points, least_scratch, MOST_LOCKERS};
use overlap::calls::{Network, Table, TableMut, Update, NONE};

#[inline(never)]
pub fn build(
    network: Network<'_>,
    points: &[u8],
    scratch: &mut [u32],
    mut table: TableMut<'_>,
) -> u32 {
    let places = table.places as usize;
    let mut number = number_of(network, points, None, read(&table));
    if number == 0 && scratch.len() < least_scratch(network, places) {
        number = 10;
    }
    if number == 0 {
        let (n, arcs) = (points.len(), network.neighbours.len());
        let used = n + 2 * (n + places * arcs);
        scratch.fill(0);
        table.ids.fill(NONE);
        table.distances.fill(NONE);
        spread(network, points, &mut scratch[..used], &mut table);
        scratch[..used].fill(0);
    }
    number
}

#[inline(never)]
pub fn insert(
    network: Network<'_>,
    points: &mut [u8],
    node: u32,
    scratch: &mut [u32],
    mut table: TableMut<'_>,
) -> Update {
    let full = (node, MOST_LOCKERS);
    let number = change_number(network, points, full, scratch.len(), &table);
    if number != 0 {
        return Update { number, changed: 0 };
    }
    scratch.fill(0);
    let changed = expand(network, node, scratch, &mut table);
    points[node as usize] += 1;
    Update { number, changed }
}

/// A table lent for writing as one to read.
fn read<'a>(table: &'a TableMut<'_>) -> Table<'a> {
    Table {
        places: table.places,
        ids: table.ids,
        distances: table.distances,
    }
}

/// The first condition met of 1 to 6, 7 where a node is given, and 8, or 0.
pub fn number_of(network: Network<'_>, points: &[u8], node: Option<u32>, table: Table<'_>) -> u32 {
    let of_network = network_check(network);
    let entries = points.len() * table.places as usize;
    if of_network != 0 {
        of_network
    } else if !are_points(points, network) {
        6
    } else if node.is_some_and(|node| node as usize >= points.len()) {
        7
    } else if !(2..=17).contains(&table.places)
        || table.ids.len() != entries
        || table.distances.len() != entries
    {
        8
    } else {
        0
    }
}

/// The first condition met of 1 to 8, 10, and 11 where the node has this many lockers, or 0.
pub fn change_number(
    network: Network<'_>,
    points: &[u8],
    (node, refused): (u32, u8),
    scratch: usize,
    table: &TableMut<'_>,
) -> u32 {
    let number = number_of(network, points, Some(node), read(table));
    if number != 0 {
        number
    } else if scratch < least_scratch(network, table.places as usize) {
        10
    } else if points[node as usize] == refused {
        11
    } else {
        0
    }
}

/// Offers each point to its own row. The least offer is taken out; a row that has a free place and
/// lacks the point takes it with its lockers, and those neighbours whose rows have a place for it are
/// offered it. The words are all zero and all places of the table empty.
fn spread(network: Network<'_>, points: &[u8], words: &mut [u32], table: &mut TableMut<'_>) {
    let (lengths, words) = words.split_at_mut(points.len());
    let mut queue = Queue::new(words);
    for (p, &lockers) in (0..).zip(points) {
        if lockers > 0 {
            queue.push(Entry::new(0, p, p));
        }
    }
    while let Some(entry) = queue.pop() {
        let (p, node) = (entry.first() as u32, entry.second());
        let point = (p, usize::from(points[p as usize]));
        if append(table, &mut lengths[node], node, point, entry.distance) {
            let arcs = network.starts[node] as usize..network.starts[node + 1] as usize;
            let weights = &network.weights[arcs.clone()];
            for (&to, &weight) in network.neighbours[arcs].iter().zip(weights) {
                if has_place(table, lengths[to as usize], to as usize, p) {
                    queue.push(Entry::new(entry.distance + weight, p, to));
                }
            }
        }
    }
}

/// Whether a row has a free place and lacks the point.
fn has_place(table: &TableMut<'_>, length: u32, node: usize, p: u32) -> bool {
    let first = node * table.places as usize;
    length < table.places && !table.ids[first..first + length as usize].contains(&p)
}

/// Puts the point behind the entries of a row that has a place for it, once for each of its lockers or
/// as often as there is room for.
fn append(
    table: &mut TableMut<'_>,
    length: &mut u32,
    node: usize,
    (p, lockers): (u32, usize),
    distance: u32,
) -> bool {
    if !has_place(table, *length, node, p) {
        return false;
    }
    let (ids, distances) = row(table, node);
    let mut at = *length as usize;
    let end = ids.len().min(at + lockers);
    while at < end {
        ids[at] = p;
        distances[at] = distance;
        at += 1;
    }
    *length = end as u32;
    true
}

/// A node's row of ids and distances.
pub fn row<'a>(table: &'a mut TableMut<'_>, node: usize) -> (&'a mut [u32], &'a mut [u32]) {
    let places = table.places as usize;
    let part = node * places..(node + 1) * places;
    (&mut table.ids[part.clone()], &mut table.distances[part])
}

/// How many of the ids are p.
pub fn among(ids: &[u32], p: u32) -> usize {
    ids.iter().filter(|&&id| id == p).count()
}

/// Expands from the new locker as far as rows take it, and returns how many do. The words are all
/// zero.
fn expand(network: Network<'_>, node: u32, words: &mut [u32], table: &mut TableMut<'_>) -> u32 {
    let mut area = Area::start(words, network, node);
    let mut changed = 0;
    while let Some(entry) = area.next() {
        let taken = put(table, entry.node(), node, entry.distance);
        area.settle(entry);
        if taken {
            changed += 1;
            area.open(network, entry);
        }
    }
    area.clear();
    changed
}

/// Puts the point into a row once more, in front of what comes behind it; the last entry drops.
fn put(table: &mut TableMut<'_>, node: usize, p: u32, distance: u32) -> bool {
    let (ids, distances) = row(table, node);
    let mut entries = ids.iter().zip(distances.iter());
    let Some(place) = entries.position(|(&id, &far)| (distance, p) < (far, id)) else {
        return false;
    };
    put_at(ids, place, p);
    put_at(distances, place, distance);
    true
}

fn put_at(row: &mut [u32], place: usize, word: u32) {
    row.copy_within(place..row.len() - 1, place + 1);
    row[place] = word;
}
