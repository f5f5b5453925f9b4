//! A road-like network: random places in a square, joined by short roads that do not cross.
//!
//! Two places have a road where no third is nearer to both of them than they are to each other
//! (their relative neighbourhood), which joins all places. Of the pairs in whose circle, the one
//! with the road as its diameter, no third place lies (Gabriel's graph), one in four has a road as
//! well. Roads of that graph do not cross.

use super::common::network::OwnedNetwork;
use super::common::random::Random;

/// There is one place to a cell on average; a cell is so many units wide, the unit of the weights.
const CELL: i64 = 100;
/// The pairs of places that are looked at are at most so many cells apart. Random places have no
/// longer road, which the caller sees as the network is connected.
const REACH: i64 = 5;
/// Of Gabriel's graph one road in so many is kept where it is no road of the relative neighbourhood.
const KEPT: u32 = 4;

#[derive(Clone, Copy)]
struct Place {
    x: i64,
    y: i64,
}

impl Place {
    /// The square of the distance.
    fn far(self, other: Self) -> i64 {
        (self.x - other.x).pow(2) + (self.y - other.y).pow(2)
    }
}

/// The places, sorted by row of cells and then cell, and where each cell starts.
struct Map {
    side: i64,
    places: Vec<Place>,
    starts: Vec<usize>,
}

/// A network of so many nodes, numbered by the cells in which they lie.
pub fn road_network(nodes: u32, random: &mut Random) -> OwnedNetwork {
    let map = Map::random(nodes, random);
    let mut roads = Vec::new();
    for a in 0..map.places.len() {
        for b in map.near(map.places[a]).filter(|&b| b > a) {
            if map.is_road(a, b, random) {
                let length = (map.places[a].far(map.places[b]) as f64).sqrt();
                roads.push((a as u32, b as u32, (length.round() as u32).max(1)));
            }
        }
    }
    OwnedNetwork::from_roads(nodes, &roads)
}

impl Map {
    fn random(nodes: u32, random: &mut Random) -> Self {
        let side = f64::from(nodes).sqrt().ceil() as i64;
        let width = (side * CELL) as u32;
        let mut place = || Place {
            x: i64::from(random.below(width)),
            y: i64::from(random.below(width)),
        };
        let mut places: Vec<Place> = (0..nodes).map(|_| place()).collect();
        let cell = |place: &Place| (place.y / CELL * side + place.x / CELL) as usize;
        places.sort_by_key(cell);
        let cells = (side * side) as usize;
        let starts = (0..=cells).map(|c| places.partition_point(|place| cell(place) < c));
        Self {
            side,
            starts: starts.collect(),
            places,
        }
    }

    /// The places in the cells around a place.
    fn near(&self, place: Place) -> impl Iterator<Item = usize> + '_ {
        let around = move |at: i64| {
            let cell = at / CELL;
            (cell - REACH).max(0)..(cell + REACH + 1).min(self.side)
        };
        let columns = around(place.x);
        around(place.y).flat_map(move |row| {
            let cell = |column| (row * self.side + column) as usize;
            self.starts[cell(columns.start)]..self.starts[cell(columns.end - 1) + 1]
        })
    }

    fn is_road(&self, a: usize, b: usize, random: &mut Random) -> bool {
        let (here, there) = (self.places[a], self.places[b]);
        let far = here.far(there);
        let others = || self.near(here).filter(|&c| c != a && c != b);
        let ways = |c: usize| (self.places[c].far(here), self.places[c].far(there));
        let is_between = |c| ways(c).0 + ways(c).1 < far;
        let is_nearer = |c| ways(c).0.max(ways(c).1) < far;
        if others().any(is_between) {
            return false;
        }
        !others().any(is_nearer) || random.once_in(KEPT)
    }
}
