//! Damage of networks. Each kind takes any arrays, damaged ones too, and leaves them as they are
//! where it finds no place. Some kinds change a network and keep it valid.

use super::network::OwnedNetwork;
use super::random::Random;
use std::ops::Range;

pub type Damage = fn(&mut OwnedNetwork, &mut Random);

/// Every kind of damage, with a name for the message of a failed test.
pub const KINDS: &[(&str, Damage)] = &[
    ("all arrays empty", |g, _| *g = OwnedNetwork::default()),
    ("starts empty", |g, _| g.starts.clear()),
    ("one start", |g, _| g.starts.truncate(1)),
    ("one start that is 0", |g, _| g.starts = vec![0]),
    ("neighbours empty", |g, _| g.neighbours.clear()),
    ("weights empty", |g, _| g.weights.clear()),
    ("neighbours and weights empty", no_arcs),
    ("a start dropped", |g, r| drop_entry(&mut g.starts, r)),
    ("a neighbour dropped", |g, r| {
        drop_entry(&mut g.neighbours, r)
    }),
    ("a weight dropped", |g, r| drop_entry(&mut g.weights, r)),
    ("a start doubled", |g, r| double_entry(&mut g.starts, r)),
    ("a neighbour doubled", |g, r| {
        double_entry(&mut g.neighbours, r)
    }),
    ("a weight doubled", |g, r| double_entry(&mut g.weights, r)),
    ("a start more", |g, r| add_entry(&mut g.starts, r)),
    ("a neighbour more", |g, r| add_entry(&mut g.neighbours, r)),
    ("a weight more", |g, r| add_entry(&mut g.weights, r)),
    ("an arc more behind the last start", add_arc_behind),
    ("first start not 0", first_start_not_0),
    ("a start that falls", falling_start),
    ("last start not A", last_start_not_a),
    ("a start moved by 1", move_start),
    ("two neighbours of a node swapped", swap_neighbours),
    ("two arcs of a node swapped", swap_arcs),
    ("two equal neighbours of a node", equal_neighbours),
    ("a neighbour is n", |g, r| {
        neighbour_becomes(g, r, node_count(g))
    }),
    ("a neighbour is n + 1", |g, r| {
        neighbour_becomes(g, r, node_count(g) + 1)
    }),
    ("a neighbour is the largest number", |g, r| {
        neighbour_becomes(g, r, u32::MAX)
    }),
    ("a neighbour is its own node", neighbour_is_own_node),
    ("a weight is 0", |g, r| weight_becomes(g, r, 0)),
    ("a weight is 65,536", |g, r| weight_becomes(g, r, 65_536)),
    ("a weight is the largest number", |g, r| {
        weight_becomes(g, r, u32::MAX)
    }),
    ("a road of weight 0", |g, r| road_becomes(g, r, 0)),
    ("a road of weight 65,536", |g, r| road_becomes(g, r, 65_536)),
    ("a road of weight 65,535", |g, r| road_becomes(g, r, 65_535)),
    ("an arc removed", remove_one_arc),
    ("a road removed", remove_road),
    ("an arc doubled", double_arc),
    ("an arc of another weight", arc_of_another_weight),
    ("two weights swapped", swap_weights),
    ("an arc turned", turn_arc),
    ("an arc turned in order", turn_arc_in_order),
    ("an arc added in order", add_arc_in_order),
    ("a start overwritten", |g, r| overwrite(&mut g.starts, r)),
    ("a neighbour overwritten", |g, r| {
        overwrite(&mut g.neighbours, r)
    }),
    ("a weight overwritten", |g, r| overwrite(&mut g.weights, r)),
    ("a node without roads more", add_node),
];

/// Damages the network some times over and returns the names of what is done.
pub fn damage(network: &mut OwnedNetwork, times: u32, random: &mut Random) -> Vec<&'static str> {
    let mut names = Vec::new();
    for _ in 0..times {
        let (name, kind) = random.pick(KINDS);
        kind(network, random);
        names.push(name);
    }
    names
}

fn node_count(network: &OwnedNetwork) -> u32 {
    network.starts.len().saturating_sub(1) as u32
}

/// The indices of a node's arcs, as far as there are arcs; none where starts falls.
fn arcs_of(network: &OwnedNetwork, node: usize) -> Range<usize> {
    let arcs = network.neighbours.len().min(network.weights.len());
    let end = (network.starts[node + 1] as usize).min(arcs);
    let start = (network.starts[node] as usize).min(end);
    start..end
}

/// A random node that has at least this many arcs.
fn node_with_arcs(network: &OwnedNetwork, least: usize, random: &mut Random) -> Option<usize> {
    let has_arcs = |&node: &usize| arcs_of(network, node).len() >= least;
    let all = 0..node_count(network) as usize;
    let nodes: Vec<usize> = all.filter(has_arcs).collect();
    random.index(nodes.len()).map(|choice| nodes[choice])
}

/// A random arc and its own node.
fn any_arc(network: &OwnedNetwork, random: &mut Random) -> Option<(usize, usize)> {
    let node = node_with_arcs(network, 1, random)?;
    let arcs = arcs_of(network, node);
    let arc = arcs.start + random.index(arcs.len())?;
    Some((node, arc))
}

/// Two random arcs of one node, the first with the smaller index.
fn two_arcs(network: &OwnedNetwork, random: &mut Random) -> Option<(usize, usize)> {
    let node = node_with_arcs(network, 2, random)?;
    let arcs = arcs_of(network, node);
    let first = arcs.start + random.index(arcs.len() - 1)?;
    let second = first + 1 + random.index(arcs.end - first - 1)?;
    Some((first, second))
}

/// The return of a node's arc.
fn return_of(network: &OwnedNetwork, node: usize, arc: usize) -> Option<usize> {
    let to = network.neighbours[arc];
    if to >= node_count(network) {
        return None;
    }
    arcs_of(network, to as usize).find(|&back| network.neighbours[back] as usize == node)
}

fn drop_entry(array: &mut Vec<u32>, random: &mut Random) {
    if let Some(place) = random.index(array.len()) {
        array.remove(place);
    }
}

fn double_entry(array: &mut Vec<u32>, random: &mut Random) {
    if let Some(place) = random.index(array.len()) {
        array.insert(place, array[place]);
    }
}

/// Puts a word in anywhere, behind the last one too.
fn add_entry(array: &mut Vec<u32>, random: &mut Random) {
    let place = random.between(0, array.len() as u32) as usize;
    let word = likely_word(array.len(), random);
    array.insert(place, word);
}

fn overwrite(array: &mut [u32], random: &mut Random) {
    if let Some(place) = random.index(array.len()) {
        array[place] = likely_word(array.len(), random);
    }
}

/// A small number, one near a bound of document 01 or of the array, or any.
fn likely_word(length: usize, random: &mut Random) -> u32 {
    let length = length as u32;
    match random.below(6) {
        0 => random.between(0, 3),
        1 => random.between(0, length),
        2 => random.between(length.saturating_sub(2), length + 2),
        3 => random.between(65_534, 65_537),
        4 => u32::MAX - random.below(2),
        _ => random.word(),
    }
}

fn no_arcs(network: &mut OwnedNetwork, _: &mut Random) {
    network.neighbours.clear();
    network.weights.clear();
}

fn add_arc_behind(network: &mut OwnedNetwork, random: &mut Random) {
    let n = node_count(network);
    network.neighbours.push(random.between(0, n));
    network.weights.push(random.between(1, 65_535));
}

fn first_start_not_0(network: &mut OwnedNetwork, random: &mut Random) {
    if let Some(first) = network.starts.first_mut() {
        *first = random.pick(&[1, 2, u32::MAX]);
    }
}

/// Makes a start smaller than the one before it.
fn falling_start(network: &mut OwnedNetwork, random: &mut Random) {
    let starts = &mut network.starts;
    let below_it = |&place: &usize| starts[place - 1] > 0;
    let places: Vec<usize> = (1..starts.len()).filter(below_it).collect();
    if let Some(choice) = random.index(places.len()) {
        let place = places[choice];
        starts[place] = random.below(starts[place - 1]);
    }
}

fn last_start_not_a(network: &mut OwnedNetwork, random: &mut Random) {
    let arcs = network.neighbours.len() as u32;
    if let Some(last) = network.starts.last_mut() {
        *last = random.pick(&[arcs + 1, arcs.saturating_sub(1), 524_289, u32::MAX]);
    }
}

/// Gives the first arc of a node to the node before it, or the other way round.
fn move_start(network: &mut OwnedNetwork, random: &mut Random) {
    if let Some(place) = random.index(network.starts.len()) {
        let start = network.starts[place];
        let moved = [start.saturating_add(1), start.saturating_sub(1)];
        network.starts[place] = random.pick(&moved);
    }
}

fn swap_neighbours(network: &mut OwnedNetwork, random: &mut Random) {
    if let Some((first, second)) = two_arcs(network, random) {
        network.neighbours.swap(first, second);
    }
}

fn swap_arcs(network: &mut OwnedNetwork, random: &mut Random) {
    if let Some((first, second)) = two_arcs(network, random) {
        network.neighbours.swap(first, second);
        network.weights.swap(first, second);
    }
}

fn equal_neighbours(network: &mut OwnedNetwork, random: &mut Random) {
    if let Some((first, second)) = two_arcs(network, random) {
        network.neighbours[second] = network.neighbours[first];
    }
}

fn neighbour_becomes(network: &mut OwnedNetwork, random: &mut Random, neighbour: u32) {
    if let Some(arc) = random.index(network.neighbours.len()) {
        network.neighbours[arc] = neighbour;
    }
}

fn neighbour_is_own_node(network: &mut OwnedNetwork, random: &mut Random) {
    if let Some((node, arc)) = any_arc(network, random) {
        network.neighbours[arc] = node as u32;
    }
}

fn weight_becomes(network: &mut OwnedNetwork, random: &mut Random, weight: u32) {
    if let Some(arc) = random.index(network.weights.len()) {
        network.weights[arc] = weight;
    }
}

/// Gives both arcs of a road a weight.
fn road_becomes(network: &mut OwnedNetwork, random: &mut Random, weight: u32) {
    if let Some((node, arc)) = any_arc(network, random) {
        if let Some(back) = return_of(network, node, arc) {
            network.weights[arc] = weight;
            network.weights[back] = weight;
        }
    }
}

/// Takes a node's arc out of all three arrays.
fn take_out(network: &mut OwnedNetwork, node: usize, arc: usize) {
    network.neighbours.remove(arc);
    network.weights.remove(arc);
    for start in &mut network.starts[node + 1..] {
        *start = start.saturating_sub(1);
    }
}

/// Puts an arc of a node into all three arrays.
fn put_in(network: &mut OwnedNetwork, node: usize, arc: usize, neighbour: u32, weight: u32) {
    network.neighbours.insert(arc, neighbour);
    network.weights.insert(arc, weight);
    for start in &mut network.starts[node + 1..] {
        *start = start.saturating_add(1);
    }
}

fn remove_one_arc(network: &mut OwnedNetwork, random: &mut Random) {
    if let Some((node, arc)) = any_arc(network, random) {
        take_out(network, node, arc);
    }
}

/// Removes both arcs of a road, the one of the larger index first.
fn remove_road(network: &mut OwnedNetwork, random: &mut Random) {
    if let Some((node, arc)) = any_arc(network, random) {
        if let Some(back) = return_of(network, node, arc) {
            let other = network.neighbours[arc] as usize;
            let (late, early) = if arc > back {
                ((node, arc), (other, back))
            } else {
                ((other, back), (node, arc))
            };
            take_out(network, late.0, late.1);
            if early != late {
                take_out(network, early.0, early.1);
            }
        }
    }
}

fn double_arc(network: &mut OwnedNetwork, random: &mut Random) {
    if let Some((node, arc)) = any_arc(network, random) {
        let (neighbour, weight) = (network.neighbours[arc], network.weights[arc]);
        put_in(network, node, arc, neighbour, weight);
    }
}

/// Gives one arc another weight that is allowed.
fn arc_of_another_weight(network: &mut OwnedNetwork, random: &mut Random) {
    if let Some(arc) = random.index(network.weights.len()) {
        let weight = network.weights[arc];
        let others = [
            1,
            weight.saturating_add(1),
            weight.saturating_sub(1),
            65_535,
        ];
        network.weights[arc] = random.pick(&others).clamp(1, 65_535);
    }
}

fn swap_weights(network: &mut OwnedNetwork, random: &mut Random) {
    let length = network.weights.len();
    if let (Some(one), Some(other)) = (random.index(length), random.index(length)) {
        network.weights.swap(one, other);
    }
}

fn turn_arc(network: &mut OwnedNetwork, random: &mut Random) {
    if let Some((_, arc)) = any_arc(network, random) {
        network.neighbours[arc] = random.below(node_count(network));
    }
}

/// The neighbours that fit strictly between two others and are not the node itself.
fn fitting(network: &OwnedNetwork, node: usize, before: &[u32], behind: &[u32]) -> Vec<u32> {
    let low = before.last().map_or(0, |&last| last.saturating_add(1));
    let high = behind
        .first()
        .map_or(node_count(network), |&first| first.min(node_count(network)));
    (low..high)
        .filter(|&neighbour| neighbour as usize != node)
        .collect()
}

/// Turns an arc so that the neighbours of its node still rise.
fn turn_arc_in_order(network: &mut OwnedNetwork, random: &mut Random) {
    if let Some((node, arc)) = any_arc(network, random) {
        let arcs = arcs_of(network, node);
        let before = &network.neighbours[arcs.start..arc];
        let behind = &network.neighbours[arc + 1..arcs.end];
        let choices = fitting(network, node, before, behind);
        if let Some(choice) = random.index(choices.len()) {
            network.neighbours[arc] = choices[choice];
        }
    }
}

/// Adds an arc without a return, so that the neighbours of its node still rise.
fn add_arc_in_order(network: &mut OwnedNetwork, random: &mut Random) {
    if let Some(node) = random.index(node_count(network) as usize) {
        let arcs = arcs_of(network, node);
        let place = random.between(arcs.start as u32, arcs.end as u32) as usize;
        let before = &network.neighbours[arcs.start..place];
        let behind = &network.neighbours[place..arcs.end];
        let choices = fitting(network, node, before, behind);
        if let Some(choice) = random.index(choices.len()) {
            put_in(network, node, place, choices[choice], 1);
        }
    }
}

fn add_node(network: &mut OwnedNetwork, _: &mut Random) {
    if let Some(&last) = network.starts.last() {
        network.starts.push(last);
    }
}
