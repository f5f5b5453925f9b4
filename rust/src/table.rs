//! The table and the points that it stands for.

use crate::buffers::{Buffers, Words};
use crate::calls::{self, accepted, TableMut, TwoTables};
use crate::{NearerRow, Nearest, Network, Points, Refusal};

/// The K nearest points of each node, and the calls that use and change them.
///
/// Document 01: "Two arrays of n × K entries, ids and distances; K is 2 to 17. Row i starts in the
/// middle of each array, at i × K [...]. It holds the K nearest points of node i that can be
/// reached, by distance then node, i's own point first; the rest is NONE in both arrays." Document
/// 02 (Ask 8): "Rows and the nearest call repeat a node for each locker, and a row is still cut
/// after K places."
///
/// A table owns the points that it stands for. They are read by [`points`](Self::points), as for
/// [`Engine::eager`](crate::Engine::eager), and change by [`insert`](Self::insert) and
/// [`remove`](Self::remove) only, which bring the table up to date; a clone of them is a set of its
/// own and no table follows it. So the engine is never lent a table of other points, for which
/// document 01 leaves answers free: arrays of any origin come in by
/// [`from_arrays`](Self::from_arrays), behind the table check.
///
/// ```
/// use overlap::{Network, Points, Table};
///
/// # fn main() -> Result<(), overlap::Refusal> {
/// // Network N of document 01.
/// let network = Network::from_roads(6, &[(0, 1, 4), (0, 3, 5), (1, 2, 3), (2, 4, 7), (3, 4, 3)])?;
/// let mut table = Table::build(&network, Points::on(&network, [2, 4, 5])?, 3)?;
/// assert_eq!(table.query(0, 2)?, [2, 4]);
///
/// table.remove(4)?;
/// assert!(table.points().iter().eq([2, 5]));
/// assert_eq!(table.query(0, 2)?, [2]);
/// # Ok(())
/// # }
/// ```
///
/// The points don't change behind the table's back:
///
/// ```compile_fail,E0596
/// use overlap::{Network, Points, Table};
///
/// # fn main() -> Result<(), overlap::Refusal> {
/// let network = Network::from_roads(2, &[(0, 1, 4)])?;
/// let mut table = Table::build(&network, Points::none(&network), 2)?;
/// table.points().insert(0)?;
/// # Ok(())
/// # }
/// ```
#[derive(Clone, Debug)]
pub struct Table {
    network: Network,
    points: Points,
    places: u32,
    ids: Vec<u32>,
    distances: Vec<u32>,
    buffers: Buffers,
}

impl Table {
    /// Document 01: "Build fills it." `places` is K.
    ///
    /// ```
    /// use overlap::{Network, Points, Refusal, Table};
    ///
    /// # fn main() -> Result<(), Refusal> {
    /// // Network N of document 01.
    /// let roads = [(0, 1, 4), (0, 3, 5), (1, 2, 3), (2, 4, 7), (3, 4, 3)];
    /// let network = Network::from_roads(6, &roads)?;
    /// let points = Points::on(&network, [2, 4, 5])?;
    /// let table = Table::build(&network, points.clone(), 2)?;
    /// // P8 and P9: the rows of nodes 0 and 5.
    /// assert!(table.row(0)?.iter().eq([(2, 7), (4, 8)]));
    /// assert!(table.row(5)?.iter().eq([(5, 0)]));
    ///
    /// // Three lockers on node 5, of which its row has room for two.
    /// let table = Table::build(&network, Points::on(&network, [5, 5, 5])?, 2)?;
    /// assert!(table.row(5)?.iter().eq([(5, 0), (5, 0)]));
    ///
    /// assert_eq!(Table::build(&network, points, 18).err(), Some(Refusal::Table));
    /// # Ok(())
    /// # }
    /// ```
    ///
    /// # Errors
    ///
    /// 6 where the points are not of so many nodes, 8 where K is not 2 to 17.
    pub fn build(network: &Network, points: Points, places: u32) -> Result<Self, Refusal> {
        // A larger K is refused by 8, whatever the arrays are.
        let length = network.nodes() as usize * places.min(17) as usize;
        let (ids, distances) = (vec![0; length], vec![0; length]);
        let mut table = Self::unchecked(network, points, places, ids, distances);
        let (network, marks, scratch, lent) = table.lend_mut();
        accepted(calls::build(network, marks, scratch, lent))?;
        Ok(table)
    }

    /// The table in these arrays, whoever filled them, or nothing where the table check says no.
    ///
    /// Document 01: "Table check: yes exactly when both arrays are the table that build would
    /// write, whoever filled them."
    ///
    /// ```
    /// use overlap::{Network, Points, Table, NONE};
    ///
    /// # fn main() -> Result<(), overlap::Refusal> {
    /// // Two nodes and one road of weight 4 between them; a point on node 1.
    /// let network = Network::from_roads(2, &[(0, 1, 4)])?;
    /// let points = Points::on(&network, [1])?;
    /// let ids = vec![1, NONE, 1, NONE];
    /// let right = vec![4, NONE, 0, NONE];
    /// let wrong = vec![3, NONE, 0, NONE];
    /// assert!(Table::from_arrays(&network, points.clone(), 2, ids.clone(), right)?.is_some());
    /// assert!(Table::from_arrays(&network, points, 2, ids, wrong)?.is_none());
    /// # Ok(())
    /// # }
    /// ```
    ///
    /// # Errors
    ///
    /// 6 where the points are not of so many nodes, 8 where K is not 2 to 17 or an array is not n ×
    /// K long.
    pub fn from_arrays(
        network: &Network,
        points: Points,
        places: u32,
        ids: Vec<u32>,
        distances: Vec<u32>,
    ) -> Result<Option<Self>, Refusal> {
        let table = Self::unchecked(network, points, places, ids, distances);
        let verdict = calls::table_check(network.lend(), table.points.marks(), table.lend());
        Ok(verdict.accepted()?.then_some(table))
    }

    fn unchecked(
        network: &Network,
        points: Points,
        places: u32,
        ids: Vec<u32>,
        distances: Vec<u32>,
    ) -> Self {
        Self {
            network: network.clone(),
            points,
            places,
            ids,
            distances,
            buffers: Buffers::default(),
        }
    }

    /// Adds a locker to a node. Document 02 (Ask 8): "Insert adds one, remove takes one". Document
    /// 01: "each brings the table up to date and returns the number of rows whose contents differ
    /// before and after."
    ///
    /// ```
    /// use overlap::{Network, Points, Refusal, Table};
    ///
    /// # fn main() -> Result<(), Refusal> {
    /// // Network N of document 01.
    /// let roads = [(0, 1, 4), (0, 3, 5), (1, 2, 3), (2, 4, 7), (3, 4, 3)];
    /// let network = Network::from_roads(6, &roads)?;
    /// let mut table = Table::build(&network, Points::on(&network, [2, 4, 5])?, 2)?;
    /// // P10: four rows change.
    /// assert_eq!(table.insert(0)?, 4);
    /// assert!(table.row(2)?.iter().eq([(2, 0), (0, 7)]));
    ///
    /// // A second locker on node 0: only its own row still has room for it.
    /// assert_eq!(table.insert(0)?, 1);
    /// assert!(table.row(0)?.iter().eq([(0, 0), (0, 0)]));
    ///
    /// // No row has room for the others, and a 16th is refused.
    /// for _ in 3..=15 {
    ///     assert_eq!(table.insert(0)?, 0);
    /// }
    /// assert_eq!(table.insert(0), Err(Refusal::Mark));
    /// # Ok(())
    /// # }
    /// ```
    ///
    /// # Errors
    ///
    /// 7 where the node is n or more, 11 where it has 15 lockers. Points and table are then as
    /// before.
    pub fn insert(&mut self, node: u32) -> Result<u32, Refusal> {
        let (network, marks, scratch, table) = self.lend_mut();
        calls::insert(network, marks, node, scratch, table).accepted()
    }

    /// Takes a locker from a node, and does all else as [`insert`](Self::insert) does.
    ///
    /// ```
    /// use overlap::{Network, Points, Refusal, Table};
    ///
    /// # fn main() -> Result<(), Refusal> {
    /// // Network N of document 01, and a point on node 0.
    /// let roads = [(0, 1, 4), (0, 3, 5), (1, 2, 3), (2, 4, 7), (3, 4, 3)];
    /// let network = Network::from_roads(6, &roads)?;
    /// let mut table = Table::build(&network, Points::on(&network, [0, 2, 4, 5])?, 2)?;
    /// // P10 undone: four rows change.
    /// assert_eq!(table.remove(0)?, 4);
    /// assert!(table.row(0)?.iter().eq([(2, 7), (4, 8)]));
    ///
    /// // Node 0 has no locker by now.
    /// assert_eq!(table.remove(0), Err(Refusal::Mark));
    /// # Ok(())
    /// # }
    /// ```
    ///
    /// # Errors
    ///
    /// 7 where the node is n or more, 11 where it has no locker. Points and table are then as
    /// before.
    pub fn remove(&mut self, node: u32) -> Result<u32, Refusal> {
        let (network, marks, scratch, table) = self.lend_mut();
        calls::remove(network, marks, node, scratch, table).accepted()
    }

    /// Document 01: "Table query (eager-M): the list, k from 1 to K - 1, since a point's row spends
    /// one place on itself." It is the list that [`Engine::eager`](crate::Engine::eager) gives for
    /// the table's points.
    ///
    /// ```
    /// use overlap::{Network, Points, Refusal, Table};
    ///
    /// # fn main() -> Result<(), Refusal> {
    /// // Network N of document 01.
    /// let roads = [(0, 1, 4), (0, 3, 5), (1, 2, 3), (2, 4, 7), (3, 4, 3)];
    /// let network = Network::from_roads(6, &roads)?;
    /// let mut table = Table::build(&network, Points::on(&network, [2, 4, 5])?, 2)?;
    /// assert_eq!(table.query(0, 1)?, [2]);
    ///
    /// // P4: the point on node 2 itself isn't listed.
    /// assert_eq!(table.query(2, 1)?, [4]);
    ///
    /// // k is at most K - 1.
    /// assert_eq!(table.query(0, 2), Err(Refusal::K));
    /// # Ok(())
    /// # }
    /// ```
    ///
    /// # Errors
    ///
    /// 7 where q is n or more, 9 where k is not 1 to K - 1.
    pub fn query(&mut self, q: u32, k: u32) -> Result<&[u32], Refusal> {
        let (scratch, answers) = self.buffers.both(&self.network, Words::S(k));
        let (network, marks) = (self.network.lend(), self.points.marks());
        let table = calls::Table {
            places: self.places,
            ids: &self.ids,
            distances: &self.distances,
        };
        let listing = calls::table_query(network, marks, q, k, table, scratch, answers);
        Ok(self.buffers.answers(listing.accepted()?.length))
    }

    /// Document 01: "Table check: yes exactly when both arrays are the table that build would
    /// write".
    ///
    /// It is yes for every value of this type; [`from_arrays`](Self::from_arrays) is where it can
    /// be no. It is here for whoever wants to see it.
    ///
    /// ```
    /// use overlap::{Network, Points, Table};
    ///
    /// # fn main() -> Result<(), overlap::Refusal> {
    /// let network = Network::from_roads(2, &[(0, 1, 4)])?;
    /// let mut table = Table::build(&network, Points::none(&network), 2)?;
    /// table.insert(1)?;
    /// assert!(table.check());
    /// # Ok(())
    /// # }
    /// ```
    #[must_use]
    pub fn check(&self) -> bool {
        let (network, marks) = (self.network.lend(), self.points.marks());
        calls::table_check(network, marks, self.lend()).accepted() == Ok(true)
    }

    /// Row i without its empty places: the K nearest points of a node, or all that it can reach, by
    /// distance then node, a node for each of its lockers.
    ///
    /// ```
    /// use overlap::{Network, Points, Refusal, Table};
    ///
    /// # fn main() -> Result<(), Refusal> {
    /// let network = Network::from_roads(3, &[(0, 1, 4), (1, 2, 3)])?;
    /// let table = Table::build(&network, Points::on(&network, [0, 2])?, 2)?;
    /// assert!(table.row(1)?.iter().eq([(2, 3), (0, 4)]));
    /// assert_eq!(table.row(3), Err(Refusal::Node));
    /// # Ok(())
    /// # }
    /// ```
    ///
    /// # Errors
    ///
    /// 7 where the node is n or more.
    pub fn row(&self, node: u32) -> Result<Nearest<'_>, Refusal> {
        if node >= self.network.nodes() {
            return Err(Refusal::Node);
        }
        let (node, places) = (node as usize, self.places as usize);
        let part = node * places..(node + 1) * places;
        Ok(Nearest::in_places(
            &self.ids[part.clone()],
            &self.distances[part],
        ))
    }

    /// Of this table and a rival's, the row of a node whose first entry is nearer. Document 02 (Ask 1):
    /// "of an own table and a rival's, the call hands back the row whose first entry is nearer, the own
    /// one when equal."
    ///
    /// The network and K are this table's. That the rival's stands on the same roads is not tested.
    ///
    /// ```
    /// use overlap::{Network, Points, Refusal, Table, NONE};
    ///
    /// # fn main() -> Result<(), Refusal> {
    /// // Network N of document 01.
    /// let roads = [(0, 1, 4), (0, 3, 5), (1, 2, 3), (2, 4, 7), (3, 4, 3)];
    /// let network = Network::from_roads(6, &roads)?;
    /// let own = Table::build(&network, Points::on(&network, [2, 4, 5])?, 2)?;
    /// let rival = Table::build(&network, Points::on(&network, [0, 2, 3])?, 2)?;
    ///
    /// // The rival has a point on node 0. Node 1 has a point of each 3 away: its row is the own one.
    /// let row = own.nearer_row(&rival, 0)?;
    /// assert_eq!((row.is_rivals, row.distances), (true, &[0, 5][..]));
    /// let row = own.nearer_row(&rival, 1)?;
    /// assert_eq!((row.is_rivals, row.distances), (false, &[3, 10][..]));
    ///
    /// // Empty places are NONE: the rival reaches node 5 with no point.
    /// assert_eq!(own.nearer_row(&rival, 5)?.distances, [0, NONE]);
    ///
    /// // A rival's table of another K.
    /// let three = Table::build(&network, Points::none(&network), 3)?;
    /// assert_eq!(own.nearer_row(&three, 0), Err(Refusal::Table));
    /// # Ok(())
    /// # }
    /// ```
    ///
    /// # Errors
    ///
    /// 7 where the node is n or more, 8 where the rival's table has another K or another n.
    pub fn nearer_row<'a>(
        &'a self,
        rival: &'a Self,
        junction: u32,
    ) -> Result<NearerRow<'a>, Refusal> {
        let tables = self.beside(rival);
        let part = calls::nearer_row_part(self.network.lend(), junction, tables);
        let distances = part.of(tables)?;
        Ok(NearerRow {
            is_rivals: part.rival == 1,
            distances,
        })
    }

    /// This table and a rival's, as a call is lent them. Arrays of another K and another n can be as
    /// long as these; the rival's are lent as empty ones then, which 8 refuses.
    fn beside<'a>(&'a self, rival: &'a Self) -> TwoTables<'a> {
        let size = |table: &Self| (table.places, table.network.nodes());
        let (rival_ids, rival_distances) = match size(self) == size(rival) {
            true => (&rival.ids[..], &rival.distances[..]),
            false => (&[][..], &[][..]),
        };
        TwoTables {
            places: self.places,
            own_ids: &self.ids,
            own_distances: &self.distances,
            rival_ids,
            rival_distances,
        }
    }

    /// The network.
    ///
    /// ```
    /// use overlap::{Network, Points, Table};
    ///
    /// # fn main() -> Result<(), overlap::Refusal> {
    /// // Network N of document 01.
    /// let roads = [(0, 1, 4), (0, 3, 5), (1, 2, 3), (2, 4, 7), (3, 4, 3)];
    /// let network = Network::from_roads(6, &roads)?;
    /// let table = Table::build(&network, Points::on(&network, [2, 4, 5])?, 2)?;
    /// assert_eq!(table.network(), &network);
    /// # Ok(())
    /// # }
    /// ```
    #[must_use]
    pub fn network(&self) -> &Network {
        &self.network
    }

    /// The points that the table stands for.
    ///
    /// ```
    /// use overlap::{Network, Points, Table};
    ///
    /// # fn main() -> Result<(), overlap::Refusal> {
    /// // Network N of document 01.
    /// let roads = [(0, 1, 4), (0, 3, 5), (1, 2, 3), (2, 4, 7), (3, 4, 3)];
    /// let network = Network::from_roads(6, &roads)?;
    /// let table = Table::build(&network, Points::on(&network, [2, 4, 5])?, 2)?;
    /// assert!(table.points().iter().eq([2, 4, 5]));
    /// # Ok(())
    /// # }
    /// ```
    #[must_use]
    pub fn points(&self) -> &Points {
        &self.points
    }

    /// The points alone, once the table is not needed.
    ///
    /// ```
    /// use overlap::{Network, Points, Table};
    ///
    /// # fn main() -> Result<(), overlap::Refusal> {
    /// // Network N of document 01.
    /// let roads = [(0, 1, 4), (0, 3, 5), (1, 2, 3), (2, 4, 7), (3, 4, 3)];
    /// let network = Network::from_roads(6, &roads)?;
    /// let table = Table::build(&network, Points::on(&network, [2, 4, 5])?, 2)?;
    /// assert_eq!(table.into_points(), Points::on(&network, [2, 4, 5])?);
    /// # Ok(())
    /// # }
    /// ```
    #[must_use]
    pub fn into_points(self) -> Points {
        self.points
    }

    /// K, the places of a row.
    ///
    /// ```
    /// use overlap::{Network, Points, Table};
    ///
    /// # fn main() -> Result<(), overlap::Refusal> {
    /// // Network N of document 01.
    /// let roads = [(0, 1, 4), (0, 3, 5), (1, 2, 3), (2, 4, 7), (3, 4, 3)];
    /// let network = Network::from_roads(6, &roads)?;
    /// let table = Table::build(&network, Points::on(&network, [2, 4, 5])?, 2)?;
    /// assert_eq!(table.places(), 2);
    /// # Ok(())
    /// # }
    /// ```
    #[must_use]
    pub fn places(&self) -> u32 {
        self.places
    }

    /// The table as the functions of [`calls`] are lent it: K and both whole arrays.
    ///
    /// ```
    /// use overlap::{Network, Points, Table, NONE};
    ///
    /// # fn main() -> Result<(), overlap::Refusal> {
    /// let network = Network::from_roads(2, &[(0, 1, 4)])?;
    /// let table = Table::build(&network, Points::on(&network, [1])?, 2)?;
    /// assert_eq!(table.lend().ids, [1, NONE, 1, NONE]);
    /// assert_eq!(table.lend().distances, [4, NONE, 0, NONE]);
    /// # Ok(())
    /// # }
    /// ```
    #[must_use]
    pub fn lend(&self) -> calls::Table<'_> {
        calls::Table {
            places: self.places,
            ids: &self.ids,
            distances: &self.distances,
        }
    }

    /// All that a call which writes the table is lent.
    fn lend_mut(&mut self) -> (calls::Network<'_>, &mut [u8], &mut [u32], TableMut<'_>) {
        let scratch = self.buffers.scratch(&self.network, Words::S(self.places));
        let table = TableMut {
            places: self.places,
            ids: &mut self.ids,
            distances: &mut self.distances,
        };
        (self.network.lend(), self.points.marks_mut(), scratch, table)
    }
}
