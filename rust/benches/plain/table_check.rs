//! The table check: each row agrees with the rows of its neighbours, arc by arc. The arrays may hold
//! anything.

use super::site::lockers_at;
use super::table::{among, number_of};
use overlap::calls::{Network, Table, Verdict, NONE};

#[inline(never)]
pub fn table_check(network: Network<'_>, points: &[u8], table: Table<'_>) -> Verdict {
    let number = number_of(network, points, None, table);
    if number != 0 {
        return Verdict { number, yes: 0 };
    }
    let lent = Lent {
        network,
        points,
        table,
    };
    let yes = (0..points.len()).all(|node| lent.is_right(node));
    Verdict {
        number,
        yes: u32::from(yes),
    }
}

/// What the check reads.
struct Lent<'a> {
    network: Network<'a>,
    points: &'a [u8],
    table: Table<'a>,
}

/// A row of ids and distances.
#[derive(Clone, Copy)]
struct Row<'a> {
    ids: &'a [u32],
    distances: &'a [u32],
}

impl<'a> Lent<'a> {
    fn row(&self, node: usize) -> Row<'a> {
        let places = self.table.places as usize;
        let part = node * places..(node + 1) * places;
        Row {
            ids: &self.table.ids[part.clone()],
            distances: &self.table.distances[part],
        }
    }

    /// The neighbours of a node and the weights of its arcs.
    fn arcs(&self, node: usize) -> impl Iterator<Item = (usize, u32)> + 'a {
        let starts = self.network.starts;
        let arcs = starts[node] as usize..starts[node + 1] as usize;
        let weights = &self.network.weights[arcs.clone()];
        let neighbours = &self.network.neighbours[arcs];
        let pairs = neighbours.iter().zip(weights);
        pairs.map(|(&to, &weight)| (to as usize, weight))
    }

    fn is_right(&self, node: usize) -> bool {
        let row = self.row(node);
        row.is_sorted(self.points)
            && (self.points[node] == 0 || row.holds(node as u32, 0))
            && row.entries().all(|(p, far)| self.has_source(node, p, far))
            && self
                .arcs(node)
                .all(|(to, weight)| row.has_all_of(self.row(to), weight))
    }

    /// Whether an entry is padding, the node's own point, or comes over an arc.
    fn has_source(&self, node: usize, p: u32, far: u32) -> bool {
        let is_own = p as usize == node && far == 0 && self.points[node] > 0;
        let comes_from = |(to, weight)| far >= weight && self.row(to).holds(p, far - weight);
        p == NONE || is_own || self.arcs(node).any(comes_from)
    }
}

impl<'a> Row<'a> {
    fn entries(self) -> impl Iterator<Item = (u32, u32)> + 'a {
        let entries = self.ids.iter().zip(self.distances);
        entries.map(|(&p, &far)| (p, far))
    }

    fn holds(self, p: u32, far: u32) -> bool {
        self.entries().any(|entry| entry == (p, far))
    }

    /// Whether the row is sorted by distance then node, has a node for each of its lockers and ends
    /// with its padding.
    fn is_sorted(self, points: &[u8]) -> bool {
        (0..self.ids.len()).all(|place| self.is_sorted_at(points, place))
    }

    fn is_sorted_at(self, points: &[u8], place: usize) -> bool {
        let (p, far) = (self.ids[place], self.distances[place]);
        if p == NONE {
            return far == NONE && self.is_whole_before(points, place);
        }
        let earlier = among(&self.ids[..place], p);
        if earlier >= lockers_at(points, p) {
            return false;
        }
        let Some(before) = place.checked_sub(1) else {
            return true;
        };
        let (q, near) = (self.ids[before], self.distances[before]);
        if earlier > 0 {
            return (q, near) == (p, far);
        }
        q != NONE && (near, q) < (far, p) && self.is_whole_before(points, place)
    }

    /// Whether the node of the place before this one has all its lockers by then.
    fn is_whole_before(self, points: &[u8], place: usize) -> bool {
        let before = &self.ids[..place];
        let is_whole = |&q: &u32| among(before, q) >= lockers_at(points, q);
        before.last().is_none_or(is_whole)
    }

    /// Whether no entry of a neighbour's row, over an arc of this weight, asks for a place here.
    fn has_all_of(self, other: Row<'_>, weight: u32) -> bool {
        let mut entries = other.entries().filter(|entry| entry.0 != NONE);
        entries.all(|(p, far)| self.has_placed(p, u64::from(far) + u64::from(weight)))
    }

    /// Whether the row holds the point no farther than this, or is full without it.
    fn has_placed(self, p: u32, far: u64) -> bool {
        let is_within = |(q, near)| q == p && u64::from(near) <= far;
        self.entries().any(is_within) || self.ends_by(p, far)
    }

    /// Whether the row is full, and its last entry does not come behind the point.
    fn ends_by(self, p: u32, far: u64) -> bool {
        let last = self.ids.len() - 1;
        let (q, near) = (self.ids[last], u64::from(self.distances[last]));
        q != NONE && (far, p) >= (near, q)
    }
}
