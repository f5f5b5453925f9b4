//! What the searches for a site share: the checks, the clearing, the verification of a point and the
//! list.

use super::area::Area;
use super::network_check;
use overlap::calls::{Listing, Network};

/// What a search reads.
#[derive(Clone, Copy)]
pub struct Site<'a> {
    pub network: Network<'a>,
    pub points: &'a [u8],
    pub q: u32,
    pub k: usize,
}

/// The arrays that a search writes: scratch, and one for each of its lists.
pub struct Lent<'a, const LISTS: usize> {
    pub scratch: &'a mut [u32],
    pub lists: [&'a mut [u32]; LISTS],
}

impl Site<'_> {
    /// n and A of an accepted network.
    pub fn sizes(self) -> (usize, usize) {
        (self.network.starts.len() - 1, self.network.neighbours.len())
    }

    /// The checks, scratch against the least that the search asks for and each list against n; then
    /// all of scratch is made zero, and the search is handed it and the lists.
    pub fn answer<'a, const LISTS: usize>(
        self,
        lent: Lent<'a, LISTS>,
        least: fn(Self) -> usize,
        search: impl FnOnce(&'a mut [u32], [&'a mut [u32]; LISTS]) -> Listing,
    ) -> Listing {
        let Lent { scratch, lists } = lent;
        let mut number = self.number(scratch.len(), least);
        if number == 0 && lists.iter().any(|list| list.len() < self.points.len()) {
            number = 10;
        }
        if number != 0 {
            return refused(number);
        }
        scratch.fill(0);
        search(scratch, lists)
    }

    /// S of a search, of nearest and of the table query.
    pub fn s_words(self) -> usize {
        least_scratch(self.network, self.k)
    }

    /// What eager, the short query and verify ask for, whatever k is.
    pub fn eager_words(self) -> usize {
        12 * self.points.len()
    }

    /// The first condition met of 1 to 7, 9, and 10 of scratch, or 0.
    pub fn number(self, scratch: usize, least: fn(Self) -> usize) -> u32 {
        match self.place_number() {
            0 => self.k_number(scratch, least),
            number => number,
        }
    }

    /// The first condition met of 1 to 7, or 0.
    pub fn place_number(self) -> u32 {
        match self.points_number() {
            0 if self.q as usize >= self.points.len() => 7,
            number => number,
        }
    }

    /// The first condition met of 1 to 6, or 0.
    pub fn points_number(self) -> u32 {
        match network_check(self.network) {
            0 if !are_points(self.points, self.network) => 6,
            number => number,
        }
    }

    /// 9, or 10 of scratch, or 0.
    pub fn k_number(self, scratch: usize, least: fn(Self) -> usize) -> u32 {
        if self.k == 0 || self.k > 16 {
            9
        } else if scratch < least(self) {
            10
        } else {
            0
        }
    }

    /// Expands from point p until it is known whether fewer than k other lockers are strictly nearer
    /// to p than the site. A point on the site gets no, by the first node. What it settles stays in
    /// the area.
    pub fn visit<'a>(self, p: u32, words: &'a mut [u32]) -> (bool, Area<'a>) {
        self.visit_from(p, words, |node| node == self.q as usize)
    }

    /// The same for a site of several nodes, of which it is told whether a node is one.
    fn visit_from<'a>(
        self,
        p: u32,
        words: &'a mut [u32],
        is_site: impl Fn(usize) -> bool,
    ) -> (bool, Area<'a>) {
        let mut area = Area::start(words, self.network, p);
        let (mut label, mut below, mut level) = (0, 0, 0);
        while let Some(entry) = area.next() {
            if entry.distance > label {
                (label, below, level) = (entry.distance, below + level, 0);
            }
            if below >= self.k || is_site(entry.node()) {
                return (entry.node() != p as usize && below < self.k, area);
            }
            level += self.others_at(entry.node(), p);
            area.settle(entry);
            area.open(self.network, entry);
        }
        (false, area)
    }

    /// The same as `visit`, and the area is all zero behind it.
    pub fn verify(self, p: u32, words: &mut [u32]) -> bool {
        self.verify_from(p, words, |node| node == self.q as usize)
    }

    /// The same for a site of several nodes, of which it is told whether a node is one.
    pub fn verify_from(self, p: u32, words: &mut [u32], is_site: impl Fn(usize) -> bool) -> bool {
        let (yes, area) = self.visit_from(p, words, is_site);
        area.clear();
        yes
    }

    /// How many lockers a node has besides the one at point p.
    fn others_at(self, node: usize, p: u32) -> usize {
        usize::from(self.points[node]) - usize::from(node == p as usize)
    }
}

/// As many lockers as a node may have.
pub const MOST_LOCKERS: u8 = 15;

/// Whether there are n bytes, none above 15.
pub fn are_points(points: &[u8], network: Network<'_>) -> bool {
    points.len() == network.starts.len() - 1 && points.iter().all(|&byte| byte <= MOST_LOCKERS)
}

/// How many lockers a node has, none where the word of a table is no node.
pub fn lockers_at(points: &[u8], p: u32) -> usize {
    points.get(p as usize).copied().map_or(0, usize::from)
}

/// S for an m that is in its range.
pub fn least_scratch(network: Network<'_>, m: usize) -> usize {
    let (n, arcs) = (network.starts.len() - 1, network.neighbours.len());
    16 * n + 8 * (arcs + n) * m
}

pub fn refused(number: u32) -> Listing {
    Listing {
        number,
        count: 0,
        length: 0,
    }
}

/// Writes the nodes whose flag is set and returns the listing.
pub fn listed(flags: &[u32], answers: &mut [u32], count: u32) -> Listing {
    let mut length = 0;
    for (p, &flag) in (0..).zip(flags) {
        if flag != 0 {
            answers[length] = p;
            length += 1;
        }
    }
    Listing {
        number: 0,
        count,
        length,
    }
}
