//! The table of document 01 by a plain calculation, and tables to lend.

use super::all_pairs::AllPairs;
use super::inputs::no_places;
use super::lent::Lent;
use super::nearest_rows::NearestRows;
use super::network::OwnedNetwork;
use super::numbers::{plain_scratch_len, TableSizes};
use super::random::Random;
use super::rows::Near;
use overlap::calls::{build, Table, TableMut, NONE};

/// "Two arrays of n × K entries, ids and distances".
#[derive(Clone, Debug, PartialEq, Eq)]
pub struct PlainTable {
    pub places: u32,
    pub ids: Vec<u32>,
    pub distances: Vec<u32>,
}

impl PlainTable {
    /// "It holds the K nearest points of node i that can be reached, by distance then node". Ask 8:
    /// "a row is still cut after K places".
    pub fn of(pairs: &AllPairs, points: &[u8], places: u32) -> Self {
        let nodes = 0..points.len() as u32;
        let row = |node| pairs.plain_nearest(points, node, NONE, places);
        Self::of_rows(places, nodes.map(row))
    }

    /// The same of a network that may be too large for all pairs.
    pub fn of_large(network: &OwnedNetwork, points: &[u8], places: u32) -> Self {
        let nearest = NearestRows::of(network.lend(), points, places as usize);
        let near = |(far, p): (u64, u32)| (p, far as u32);
        let row = |node| nearest.row(node).into_iter().map(near).collect();
        Self::of_rows(places, (0..points.len() as u32).map(row))
    }

    /// "the rest is NONE in both arrays."
    fn of_rows(places: u32, rows: impl Iterator<Item = Vec<Near>>) -> Self {
        let mut entries = Vec::new();
        for mut row in rows {
            row.resize(places as usize, (NONE, NONE));
            entries.extend(row);
        }
        let (ids, distances) = entries.into_iter().unzip();
        Self {
            places,
            ids,
            distances,
        }
    }

    /// The table that the engine builds in arrays of any old contents.
    pub fn built(network: &OwnedNetwork, points: &[u8], places: u32, random: &mut Random) -> Self {
        let mut table = OwnedTable::junk(points.len(), places, random);
        let mut scratch = Lent::junk(plain_scratch_len(network.lend(), places), random);
        let lent = table.lend_mut();
        assert_eq!(build(network.lend(), points, scratch.part_mut(), lent), 0);
        table.words()
    }

    pub fn row(&self, node: u32) -> Vec<Near> {
        let part = self.part(node);
        let ids = self.ids[part.clone()].iter().copied();
        ids.zip(self.distances[part].iter().copied()).collect()
    }

    /// Where a node's row stands in both arrays.
    pub fn part(&self, node: u32) -> std::ops::Range<usize> {
        let places = self.places as usize;
        node as usize * places..(node as usize + 1) * places
    }

    pub fn nodes(&self) -> u32 {
        self.ids.len() as u32 / self.places
    }

    /// "the number of rows whose contents differ before and after".
    pub fn changed(&self, after: &Self) -> u32 {
        let differs = |&node: &u32| self.row(node) != after.row(node);
        (0..self.nodes()).filter(differs).count() as u32
    }

    pub fn lend(&self) -> Table<'_> {
        Table {
            places: self.places,
            ids: &self.ids,
            distances: &self.distances,
        }
    }
}

/// A table that a call may write.
#[derive(Clone)]
pub struct OwnedTable {
    pub places: u32,
    pub ids: Lent,
    pub distances: Lent,
}

impl OwnedTable {
    /// Arrays of n × K entries full of junk.
    pub fn junk(n: usize, places: u32, random: &mut Random) -> Self {
        let length = n * places as usize;
        Self {
            places,
            ids: Lent::junk(length, random),
            distances: Lent::junk(length, random),
        }
    }

    /// Arrays that hold this table.
    pub fn holding(table: &PlainTable, random: &mut Random) -> Self {
        Self::junk(table.nodes() as usize, table.places, random).with(table)
    }

    /// These arrays once they hold this table, which is as long.
    pub fn with(self, table: &PlainTable) -> Self {
        assert_eq!(self.sizes(), (table.places, [table.ids.len(); 2]));
        Self {
            places: self.places,
            ids: self.ids.with_answer(&table.ids),
            distances: self.distances.with_answer(&table.distances),
        }
    }

    pub fn words(&self) -> PlainTable {
        PlainTable {
            places: self.places,
            ids: self.ids.part().to_vec(),
            distances: self.distances.part().to_vec(),
        }
    }

    pub fn lend(&self) -> Table<'_> {
        Table {
            places: self.places,
            ids: self.ids.part(),
            distances: self.distances.part(),
        }
    }

    pub fn lend_mut(&mut self) -> TableMut<'_> {
        TableMut {
            places: self.places,
            ids: self.ids.part_mut(),
            distances: self.distances.part_mut(),
        }
    }

    pub fn sizes(&self) -> TableSizes {
        (self.places, [self.ids.len(), self.distances.len()])
    }

    pub fn arrays(&self) -> [(&'static str, &Lent); 2] {
        [("ids", &self.ids), ("distances", &self.distances)]
    }

    /// 8: "K not 2 to 17", at times with arrays that are n × K long.
    pub fn spoil_places(&mut self, random: &mut Random) {
        let n = self.ids.len() / self.places.clamp(1, 17) as usize;
        let places = no_places(random);
        if places <= 34 && random.once_in(2) {
            *self = Self::junk(n, places, random);
        }
        self.places = places;
    }

    /// 8: "a table array not n × K long": one array or both of another length, or another K.
    pub fn spoil_lengths(&mut self, random: &mut Random) {
        let (length, row) = (self.ids.len(), self.places.min(17) as usize);
        let other = random.pick(&[length.saturating_sub(1), length + 1, 0, length + row]);
        match random.below(4) {
            0 => self.ids = Lent::junk(other, random),
            1 => self.distances = Lent::junk(other, random),
            2 => {
                self.ids = Lent::junk(other, random);
                self.distances = Lent::junk(other, random);
            }
            _ => self.places = if self.places == 17 { 16 } else { 17 },
        }
    }
}
