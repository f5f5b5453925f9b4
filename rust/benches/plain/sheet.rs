//! The sheet: for each site, how many households have no site nearer. One expansion from all sites
//! together labels each node with the distance of its nearest site; the list of a site is what a walk
//! from it reaches along arcs that are as long as the labels of their ends differ.
//!
//! Words of scratch: marks n, nodes walked to n, area 4 × n.

use super::area::Area;
use super::network_check;
use super::site::{are_points, least_scratch};
use overlap::calls::Network;

/// The k of the sheet, which is its own (Ask 10): the walk below is for one nearest.
const SHEET_K: usize = 1;

#[inline(never)]
pub fn sheet(
    network: Network<'_>,
    households: &[u8],
    sites: &[u8],
    scratch: &mut [u32],
    answers: &mut [u32],
) -> u32 {
    let number = number_of(network, [households, sites], scratch.len(), answers.len());
    if number == 0 {
        scratch.fill(0);
        write(network, households, sites, scratch, answers);
    }
    number
}

/// The first condition met of 1 to 6 and 10, or 0.
fn number_of(network: Network<'_>, bytes: [&[u8]; 2], scratch: usize, answers: usize) -> u32 {
    let number = bytes_number(network, bytes[0], bytes[1]);
    if number != 0 {
        number
    } else if scratch < least_scratch(network, SHEET_K) || answers < bytes[1].len() {
        10
    } else {
        0
    }
}

/// The first condition met of 1 to 6, or 0.
pub fn bytes_number(network: Network<'_>, households: &[u8], sites: &[u8]) -> u32 {
    match network_check(network) {
        0 if !are_points(households, network) || !are_points(sites, network) => 6,
        number => number,
    }
}

/// Writes an entry for each node. The words are all zero before and after.
fn write(
    network: Network<'_>,
    households: &[u8],
    sites: &[u8],
    words: &mut [u32],
    answers: &mut [u32],
) {
    let n = sites.len();
    let (marks, rest) = words.split_at_mut(n);
    let (nodes, words) = rest.split_at_mut(n);
    let mut area = Area::empty(words, network);
    for (site, _) in (0..).zip(sites).filter(|(_, &byte)| byte > 0) {
        area.begin_at(site);
    }
    area.settle_all(network);
    let mut walk = Walk { marks, nodes };
    for ((site, answer), &byte) in (0..).zip(answers).zip(sites) {
        *answer = match byte {
            0 => 0,
            _ => walk.won_by(site, network, &area, households),
        };
    }
    walk.marks.fill(0);
    walk.nodes.fill(0);
    area.clear();
}

/// The words of all walks. A node is marked with the last site that walked to it, and 1.
struct Walk<'a> {
    marks: &'a mut [u32],
    nodes: &'a mut [u32],
}

impl Walk<'_> {
    /// Walks from a site, breadth first, and adds up the households on its way.
    fn won_by(
        &mut self,
        site: u32,
        network: Network<'_>,
        area: &Area<'_>,
        households: &[u8],
    ) -> u32 {
        let (mut sum, mut at, mut length) = (0, 0, 0);
        self.reach(site, site, &mut length);
        while at < length {
            let own = self.nodes[at] as usize;
            at += 1;
            sum += u32::from(households[own]);
            let label = area.label(own).unwrap();
            let arcs = network.starts[own] as usize..network.starts[own + 1] as usize;
            let weights = &network.weights[arcs.clone()];
            for (&to, &weight) in network.neighbours[arcs].iter().zip(weights) {
                if area.label(to as usize) == Some(label + weight) {
                    self.reach(to, site, &mut length);
                }
            }
        }
        sum
    }

    /// Lets a node wait, unless this walk has reached it.
    fn reach(&mut self, node: u32, site: u32, length: &mut usize) {
        let mark = &mut self.marks[node as usize];
        if *mark != site + 1 {
            *mark = site + 1;
            self.nodes[*length] = node;
            *length += 1;
        }
    }
}
