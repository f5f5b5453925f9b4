//! The plain book of document 01.

use super::all_pairs::AllPairs;
use super::network::OwnedNetwork;
use super::numbers::plain_scratch_len;
use super::table::PlainTable;
use overlap::calls::Update;

/// The kind of a call.
#[derive(Clone, Copy, Debug, PartialEq, Eq)]
pub enum Deed {
    Insert,
    Remove,
}

/// "then each call's kind, node, K and scratch length".
#[derive(Clone, Copy, Debug)]
pub struct Line {
    pub deed: Deed,
    pub node: u32,
    pub places: u32,
    pub scratch: usize,
}

/// "Its state is one mark a node, at first the build's." Ask 8: a mark is "the number of lockers
/// there".
pub struct Book<'a> {
    network: &'a OwnedNetwork,
    pairs: &'a AllPairs,
    places: u32,
    pub marks: Vec<u8>,
}

impl<'a> Book<'a> {
    /// "The book is fed the build's network, marks and K".
    pub fn new(network: &'a OwnedNetwork, pairs: &'a AllPairs, marks: &[u8], places: u32) -> Self {
        Self {
            network,
            pairs,
            places,
            marks: marks.to_vec(),
        }
    }

    /// "The first met is the call's number; the marks stay and the changed count is 0. With none met
    /// the number is 0, [...] and the changed count is the number of nodes whose row, by the rule
    /// under the table, differs between the marks before and after." Ask 8: "Insert adds one, remove
    /// takes one, in the plain book of document 01 too."
    pub fn feed(&mut self, line: Line) -> Update {
        let number = self.number(line);
        if number != 0 {
            return Update { number, changed: 0 };
        }
        let before = self.table();
        match line.deed {
            Deed::Insert => self.marks[line.node as usize] += 1,
            Deed::Remove => self.marks[line.node as usize] -= 1,
        }
        let changed = before.changed(&self.table());
        Update { number, changed }
    }

    /// The rows of the marks.
    pub fn table(&self) -> PlainTable {
        PlainTable::of(self.pairs, &self.marks, self.places)
    }

    /// "For each call it tries 7, 8, 10 and 11 in this order, 8 on the call's K with table arrays as
    /// long as the build's, 11 on its own marks." Ask 8: "11 means insert at 15, remove or verify at
    /// 0".
    fn number(&self, line: Line) -> u32 {
        let length = |places| self.marks.len() * places as usize;
        let refused_at = match line.deed {
            Deed::Insert => 15,
            Deed::Remove => 0,
        };
        if line.node as usize >= self.marks.len() {
            7
        } else if !(2..=17).contains(&line.places) || length(line.places) != length(self.places) {
            8
        } else if line.scratch < plain_scratch_len(self.network.lend(), line.places) {
            10
        } else if self.marks[line.node as usize] == refused_at {
            11
        } else {
            0
        }
    }
}
