//! Random inputs of calls: those that are accepted, and those that meet a condition of document
//! 01's table of refusals.

use super::network::OwnedNetwork;
use super::random::Random;
use super::rows::Row;

/// A length that is at least this one, and often just this one.
pub fn enough(least: usize, random: &mut Random) -> usize {
    least + random.pick(&[0, 0, 0, 1, 2, 7, 60])
}

/// A length below this one, and often just below.
pub fn too_short(least: usize, random: &mut Random) -> usize {
    let shorter = [least.saturating_sub(1), random.index(least).unwrap_or(0), 0];
    random.pick(&[shorter[0], shorter[0], shorter[1], shorter[2]])
}

/// A node, and often the last one.
pub fn some_node(network: &OwnedNetwork, random: &mut Random) -> u32 {
    let last = last_node(network);
    if random.once_in(8) {
        last
    } else {
        random.between(0, last)
    }
}

/// 7: "a node given is n or more".
pub fn no_node(network: &OwnedNetwork, random: &mut Random) -> u32 {
    let n = network.starts.len().saturating_sub(1) as u32;
    let larger = random.between(n, u32::MAX);
    random.pick(&[n, n, n + 1, 65_536 + n / 2, u32::MAX - 1, u32::MAX, larger])
}

/// A k from 1 to 16, small ones more often.
pub fn some_k(random: &mut Random) -> u32 {
    let most = random.pick(&[1, 3, 16, 16]);
    random.between(1, most)
}

/// 9: "k is 0 or above 16".
pub fn no_k(random: &mut Random) -> u32 {
    let large = random.between(17, u32::MAX);
    let wraps = [(1 << 16) + 1, (1 << 28) + 1, (1 << 29) + 1, (1 << 31) + 1];
    let wrap = random.pick(&wraps);
    random.pick(&[0, 0, 17, 17, 18, 32, wrap, u32::MAX, large])
}

/// A K from 2 to 17, small ones more often.
pub fn some_places(random: &mut Random) -> u32 {
    let most = random.pick(&[2, 4, 17, 17]);
    random.between(2, most)
}

/// 8: "K not 2 to 17".
pub fn no_places(random: &mut Random) -> u32 {
    let large = random.between(18, u32::MAX);
    let wrap = random.pick(&[(1 << 16) + 2, (1 << 28) + 2, (1 << 29) + 2, (1 << 31) + 2]);
    random.pick(&[0, 1, 1, 18, 18, 19, 34, wrap, u32::MAX, large])
}

/// Points of any density, from none to all, with at most 1, 3 or 15 lockers on a node.
pub fn some_points(network: &OwnedNetwork, random: &mut Random) -> Vec<u8> {
    let one_in = random.pick(&[1, 2, 3, 8, u32::MAX, u32::MAX]);
    let most = random.pick(&[1, 1, 3, 15]);
    let mut points = vec![0; network.starts.len() - 1];
    for lockers in &mut points {
        if random.once_in(one_in) {
            *lockers = some_lockers(most, random);
        }
    }
    if random.once_in(2) {
        points[some_node(network, random) as usize] = some_lockers(most, random);
    }
    points
}

/// A number of lockers from 1 to the most, which itself comes often.
fn some_lockers(most: u8, random: &mut Random) -> u8 {
    if random.once_in(4) {
        most
    } else {
        random.between(1, most.into()) as u8
    }
}

/// 6: points has not n entries, or a byte above 15.
pub fn spoil_points(points: &mut Vec<u8>, random: &mut Random) {
    let place = random.index(points.len());
    match (random.below(5), place) {
        (0, Some(_)) => drop(points.pop()),
        (1, _) => points.push(random.pick(&[0, 1, 15, 16])),
        (2, Some(_)) => points.clear(),
        (3, Some(place)) => points[place] = random.pick(&[16, 17, 128, 255]),
        (_, Some(_)) => *points.last_mut().unwrap() = 16,
        (_, None) => points.push(1),
    }
}

/// A bound e: 0, 1, the largest number, any, or one at or next to a distance of the row.
pub fn some_e(row: &Row, random: &mut Random) -> u32 {
    let reached: Vec<u64> = row.iter().copied().flatten().collect();
    let distance = reached[random.index(reached.len()).unwrap()] as u32;
    match random.below(6) {
        0 => 0,
        1 => 1,
        2 => u32::MAX,
        3 => random.word(),
        4 => distance,
        _ => distance + 1,
    }
}

fn last_node(network: &OwnedNetwork) -> u32 {
    network.starts.len() as u32 - 2
}
