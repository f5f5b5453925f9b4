//! Distances from a node.
//!
//! Words of scratch: an area.

use super::area::Area;
use super::network_check;
use super::site::least_scratch;
use overlap::calls::{Network, NONE};

#[inline(never)]
pub fn distances(network: Network<'_>, node: u32, scratch: &mut [u32], answers: &mut [u32]) -> u32 {
    let number = number_of(network, node, scratch.len(), answers.len());
    if number == 0 {
        scratch.fill(0);
        let area = expand(network, node, scratch);
        for (answer, label) in answers.iter_mut().zip(area.labels()) {
            *answer = label.unwrap_or(NONE);
        }
        area.clear();
    }
    number
}

fn number_of(network: Network<'_>, node: u32, scratch: usize, answers: usize) -> u32 {
    let of_network = network_check(network);
    if of_network != 0 {
        return of_network;
    }
    let n = network.starts.len() - 1;
    if node as usize >= n {
        7
    } else if scratch < least_scratch(network, 1) || answers < n {
        10
    } else {
        0
    }
}

/// Settles all nodes that can be reached. The words are all zero.
fn expand<'a>(network: Network<'_>, node: u32, words: &'a mut [u32]) -> Area<'a> {
    let mut area = Area::start(words, network, node);
    area.settle_all(network);
    area
}
