//! The network check: one pass over the arrays for each condition, and a binary search for each
//! return.

use overlap::calls::Network;

#[inline(never)]
pub fn network_check(network: Network<'_>) -> u32 {
    let Network {
        starts,
        neighbours,
        weights,
    } = network;
    if starts.len() < 2 || starts.len() > 65_536 {
        1
    } else if !starts_fit(starts, neighbours.len(), weights.len()) {
        2
    } else if !neighbours_rise(starts, neighbours) {
        3
    } else if !weights_fit(weights) {
        4
    } else if !arcs_return(starts, neighbours, weights) {
        5
    } else {
        0
    }
}

fn starts_fit(starts: &[u32], arcs: usize, weights: usize) -> bool {
    if starts[0] != 0 || weights != arcs || arcs > 524_288 {
        return false;
    }
    let mut node = 0;
    while node + 1 < starts.len() {
        if starts[node + 1] < starts[node] {
            return false;
        }
        node += 1;
    }
    starts[node] as usize == arcs
}

fn neighbours_rise(starts: &[u32], neighbours: &[u32]) -> bool {
    let mut node = 0;
    while node + 1 < starts.len() {
        let own = &neighbours[starts[node] as usize..starts[node + 1] as usize];
        if !neighbours_of_a_node_rise(own, node, starts.len() - 1) {
            return false;
        }
        node += 1;
    }
    true
}

fn neighbours_of_a_node_rise(own: &[u32], node: usize, n: usize) -> bool {
    let mut arc = 0;
    while arc < own.len() {
        let to = own[arc] as usize;
        if to >= n || to == node || (arc > 0 && own[arc] <= own[arc - 1]) {
            return false;
        }
        arc += 1;
    }
    true
}

fn weights_fit(weights: &[u32]) -> bool {
    let mut arc = 0;
    while arc < weights.len() {
        if weights[arc] == 0 || weights[arc] > 65_535 {
            return false;
        }
        arc += 1;
    }
    true
}

fn arcs_return(starts: &[u32], neighbours: &[u32], weights: &[u32]) -> bool {
    let mut node = 0;
    while node + 1 < starts.len() {
        let mut arc = starts[node] as usize;
        while arc < starts[node + 1] as usize {
            let to = neighbours[arc] as usize;
            let (start, end) = (starts[to] as usize, starts[to + 1] as usize);
            let back = first_not_below(&neighbours[start..end], node as u32);
            if back == end - start
                || neighbours[start + back] as usize != node
                || weights[start + back] != weights[arc]
            {
                return false;
            }
            arc += 1;
        }
        node += 1;
    }
    true
}

/// The first index of an ascending array whose entry is not below the wanted one.
fn first_not_below(array: &[u32], wanted: u32) -> usize {
    let (mut low, mut high) = (0, array.len());
    while low < high {
        let middle = low + (high - low) / 2;
        if array[middle] < wanted {
            low = middle + 1;
        } else {
            high = middle;
        }
    }
    low
}
