//! The network check, stated again from document 01's table of refusals, condition by condition.

use overlap::calls::Network;
use std::collections::HashSet;
use std::ops::Range;

type Condition = fn(Network<'_>) -> bool;

/// The conditions 1 to 5. Each may be asked only when none before it is met.
const CONDITIONS: [Condition; 5] = [
    starts_has_a_wrong_length,
    starts_is_no_division_of_the_arcs,
    a_neighbour_is_wrong,
    a_weight_is_wrong,
    a_return_is_lacking,
];

/// "Conditions are tried from 1 upward [...]; the first met is returned". Any input is allowed.
pub fn plain_check(network: Network<'_>) -> u32 {
    for (number, is_met) in (1..).zip(CONDITIONS) {
        if is_met(network) {
            return number;
        }
    }
    0
}

/// 1: "starts has fewer than 2 or more than 65,536 entries".
fn starts_has_a_wrong_length(network: Network<'_>) -> bool {
    network.starts.len() < 2 || network.starts.len() > 65_536
}

/// 2: "starts doesn't begin with 0, falls, or doesn't end with A; neighbours and weights differ in
/// length; A above 524,288".
fn starts_is_no_division_of_the_arcs(network: Network<'_>) -> bool {
    let starts = network.starts;
    let arcs = network.neighbours.len();
    starts[0] != 0
        || starts.windows(2).any(|pair| pair[1] < pair[0])
        || starts[starts.len() - 1] as usize != arcs
        || network.weights.len() != arcs
        || arcs > 524_288
}

/// 3: "a neighbour is n or more, is its own node, or doesn't rise strictly within a node".
fn a_neighbour_is_wrong(network: Network<'_>) -> bool {
    let n = node_count(network);
    (0..n).any(|node| {
        let neighbours = &network.neighbours[arcs_of(network, node)];
        neighbours.iter().any(|&to| to as usize >= n)
            || neighbours.iter().any(|&to| to as usize == node)
            || neighbours.windows(2).any(|pair| pair[1] <= pair[0])
    })
}

/// 4: "a weight is 0 or above 65,535".
fn a_weight_is_wrong(network: Network<'_>) -> bool {
    network.weights.iter().any(|&w| w == 0 || w > 65_535)
}

/// 5: "an arc lacks its return of equal weight".
fn a_return_is_lacking(network: Network<'_>) -> bool {
    let mut arcs = HashSet::new();
    for node in 0..node_count(network) {
        for arc in arcs_of(network, node) {
            arcs.insert((node, network.neighbours[arc] as usize, network.weights[arc]));
        }
    }
    arcs.iter()
        .any(|&(from, to, weight)| !arcs.contains(&(to, from, weight)))
}

/// n of a network that passes condition 1.
fn node_count(network: Network<'_>) -> usize {
    network.starts.len() - 1
}

/// The indices of a node's arcs, for a network that passes conditions 1 and 2.
fn arcs_of(network: Network<'_>, node: usize) -> Range<usize> {
    network.starts[node] as usize..network.starts[node + 1] as usize
}
