//! Answers that are lent from the buffers of the one who was asked.

use crate::NONE;
use std::iter::{Copied, Zip};
use std::slice::Iter;

/// The answer of [`Engine::distances`](crate::Engine::distances).
///
/// Document 01: "Distances from a node: n entries, NONE where none."
///
/// ```
/// use overlap::{Engine, Network, NONE};
///
/// # fn main() -> Result<(), overlap::Refusal> {
/// let network = Network::from_roads(3, &[(0, 1, 4)])?;
/// let mut engine = Engine::new(&network);
/// let distances = engine.distances(1)?;
/// assert_eq!((distances.to(0), distances.to(2)), (Some(4), None));
/// assert_eq!(distances.words(), [4, 0, NONE]);
/// # Ok(())
/// # }
/// ```
#[derive(Clone, Copy, Debug, PartialEq, Eq)]
pub struct Distances<'a> {
    pub(crate) words: &'a [u32],
}

impl<'a> Distances<'a> {
    /// The distance to a node; nothing where the node can't be reached or is n or more.
    ///
    /// ```
    /// use overlap::{Engine, Network};
    ///
    /// # fn main() -> Result<(), overlap::Refusal> {
    /// let network = Network::from_roads(3, &[(0, 1, 4)])?;
    /// let mut engine = Engine::new(&network);
    /// let distances = engine.distances(0)?;
    /// assert_eq!(distances.to(1), Some(4));
    /// assert_eq!(distances.to(2), None);
    /// # Ok(())
    /// # }
    /// ```
    #[must_use]
    pub fn to(self, node: u32) -> Option<u32> {
        let word = self.words.get(node as usize).copied();
        word.filter(|&word| word != NONE)
    }

    /// The n entries, [`NONE`] where a node can't be reached.
    ///
    /// ```
    /// use overlap::{Engine, Network, NONE};
    ///
    /// # fn main() -> Result<(), overlap::Refusal> {
    /// // Network N of document 01.
    /// let roads = [(0, 1, 4), (0, 3, 5), (1, 2, 3), (2, 4, 7), (3, 4, 3)];
    /// let network = Network::from_roads(6, &roads)?;
    /// let mut engine = Engine::new(&network);
    /// assert_eq!(engine.distances(4)?.words(), [8, 10, 7, 3, 0, NONE]);
    /// # Ok(())
    /// # }
    /// ```
    #[must_use]
    pub fn words(self) -> &'a [u32] {
        self.words
    }
}

/// Points of a node with their distances, by distance then node: the answer of
/// [`Engine::nearest`](crate::Engine::nearest), or a row of a [`Table`](crate::Table) without its
/// empty places. Document 02 (Ask 8): "Rows and the nearest call repeat a node for each locker".
///
/// ```
/// use overlap::{Network, Points, Table};
///
/// # fn main() -> Result<(), overlap::Refusal> {
/// let network = Network::from_roads(3, &[(0, 1, 4), (1, 2, 3)])?;
/// let table = Table::build(&network, Points::on(&network, [0, 2])?, 2)?;
/// for (locker, distance) in table.row(1)? {
///     println!("locker {locker} is {distance} away");
/// }
/// assert_eq!(table.row(1)?.ids(), [2, 0]);
/// assert_eq!(table.row(1)?.distances(), [3, 4]);
/// # Ok(())
/// # }
/// ```
#[derive(Clone, Copy, Debug, PartialEq, Eq)]
pub struct Nearest<'a> {
    ids: &'a [u32],
    distances: &'a [u32],
}

impl<'a> Nearest<'a> {
    /// The entries before the first empty place; both slices are as long.
    pub(crate) fn in_places(ids: &'a [u32], distances: &'a [u32]) -> Self {
        let length = ids.iter().take_while(|&&id| id != NONE).count();
        Self {
            ids: &ids[..length],
            distances: &distances[..length],
        }
    }

    /// The points, each named by its node; a node with several lockers comes as often.
    ///
    /// ```
    /// use overlap::{Engine, Network, Points, NONE};
    ///
    /// # fn main() -> Result<(), overlap::Refusal> {
    /// // Network N of document 01.
    /// let roads = [(0, 1, 4), (0, 3, 5), (1, 2, 3), (2, 4, 7), (3, 4, 3)];
    /// let network = Network::from_roads(6, &roads)?;
    /// let points = Points::on(&network, [2, 4, 5])?;
    /// let mut engine = Engine::new(&network);
    /// assert_eq!(engine.nearest(&points, 3, NONE, 2)?.ids(), [4, 2]);
    /// # Ok(())
    /// # }
    /// ```
    #[must_use]
    pub fn ids(self) -> &'a [u32] {
        self.ids
    }

    /// The distance of each point.
    ///
    /// ```
    /// use overlap::{Engine, Network, Points, NONE};
    ///
    /// # fn main() -> Result<(), overlap::Refusal> {
    /// // Network N of document 01.
    /// let roads = [(0, 1, 4), (0, 3, 5), (1, 2, 3), (2, 4, 7), (3, 4, 3)];
    /// let network = Network::from_roads(6, &roads)?;
    /// let points = Points::on(&network, [2, 4, 5])?;
    /// let mut engine = Engine::new(&network);
    /// assert_eq!(engine.nearest(&points, 3, NONE, 2)?.distances(), [3, 10]);
    /// # Ok(())
    /// # }
    /// ```
    #[must_use]
    pub fn distances(self) -> &'a [u32] {
        self.distances
    }

    /// How many points there are.
    ///
    /// ```
    /// use overlap::{Engine, Network, Points, NONE};
    ///
    /// # fn main() -> Result<(), overlap::Refusal> {
    /// // Network N of document 01.
    /// let roads = [(0, 1, 4), (0, 3, 5), (1, 2, 3), (2, 4, 7), (3, 4, 3)];
    /// let network = Network::from_roads(6, &roads)?;
    /// let points = Points::on(&network, [2, 4, 5])?;
    /// let mut engine = Engine::new(&network);
    /// assert_eq!(engine.nearest(&points, 3, NONE, 16)?.len(), 2);
    /// # Ok(())
    /// # }
    /// ```
    #[must_use]
    pub fn len(self) -> usize {
        self.ids.len()
    }

    /// Whether there are none.
    ///
    /// ```
    /// use overlap::{Engine, Network, Points, NONE};
    ///
    /// # fn main() -> Result<(), overlap::Refusal> {
    /// // Network N of document 01.
    /// let roads = [(0, 1, 4), (0, 3, 5), (1, 2, 3), (2, 4, 7), (3, 4, 3)];
    /// let network = Network::from_roads(6, &roads)?;
    /// let points = Points::on(&network, [2, 4, 5])?;
    /// let mut engine = Engine::new(&network);
    /// // "the nearest call with e = 0 finds nothing"
    /// assert!(engine.nearest(&points, 2, 0, 1)?.is_empty());
    /// # Ok(())
    /// # }
    /// ```
    #[must_use]
    pub fn is_empty(self) -> bool {
        self.ids.is_empty()
    }

    /// Each point with its distance.
    ///
    /// ```
    /// use overlap::{Engine, Network, Points, NONE};
    ///
    /// # fn main() -> Result<(), overlap::Refusal> {
    /// // Network N of document 01.
    /// let roads = [(0, 1, 4), (0, 3, 5), (1, 2, 3), (2, 4, 7), (3, 4, 3)];
    /// let network = Network::from_roads(6, &roads)?;
    /// let points = Points::on(&network, [2, 4, 5])?;
    /// let mut engine = Engine::new(&network);
    /// let nearest = engine.nearest(&points, 3, NONE, 2)?;
    /// assert!(nearest.iter().eq([(4, 3), (2, 10)]));
    /// # Ok(())
    /// # }
    /// ```
    pub fn iter(self) -> Zip<Copied<Iter<'a, u32>>, Copied<Iter<'a, u32>>> {
        let ids = self.ids.iter().copied();
        ids.zip(self.distances.iter().copied())
    }
}

impl<'a> IntoIterator for Nearest<'a> {
    type Item = (u32, u32);
    type IntoIter = Zip<Copied<Iter<'a, u32>>, Copied<Iter<'a, u32>>>;

    fn into_iter(self) -> Self::IntoIter {
        self.iter()
    }
}

/// The answer of [`Engine::eager`](crate::Engine::eager): what [`Listed`] has, and the visits.
///
/// ```
/// use overlap::{Engine, Network, Points};
///
/// # fn main() -> Result<(), overlap::Refusal> {
/// // Network N of document 01.
/// let network = Network::from_roads(6, &[(0, 1, 4), (0, 3, 5), (1, 2, 3), (2, 4, 7), (3, 4, 3)])?;
/// let mut engine = Engine::new(&network);
/// // P4: the site's own point isn't listed. Its node is expanded all the same.
/// let points = Points::on(&network, [2, 4, 5])?;
/// let expansion = engine.eager(&points, 2, 1, 65_535)?;
/// assert_eq!((expansion.points, expansion.expanded), (&[4][..], 3));
/// assert_eq!(expansion.visits, [2, 1, 0]);
///
/// // Without points all that can be reached is expanded. Nodes 0 and 4 are both 7 from node 2.
/// let expansion = engine.eager(&Points::none(&network), 2, 1, 65_535)?;
/// assert_eq!(expansion.visits, [2, 1, 0, 4, 3]);
/// # Ok(())
/// # }
/// ```
#[derive(Clone, Copy, Debug, PartialEq, Eq)]
pub struct Expansion<'a> {
    /// The list, as [`Listed::points`].
    pub points: &'a [u32],
    /// The count, as [`Listed::expanded`]: so many visits there are.
    pub expanded: u32,
    /// The nodes expanded, the site first. Document 02 (Ask 4): "the nodes that its count counts, by
    /// distance from the site and then by node".
    pub visits: &'a [u32],
}

/// The answer of [`Engine::short_query`](crate::Engine::short_query). Document 01: it is eager, which
/// "returns the list and the count of nodes expanded."
///
/// ```
/// use overlap::{Engine, Network, Points};
///
/// # fn main() -> Result<(), overlap::Refusal> {
/// // Network N of document 01.
/// let network = Network::from_roads(6, &[(0, 1, 4), (0, 3, 5), (1, 2, 3), (2, 4, 7), (3, 4, 3)])?;
/// let points = Points::on(&network, [2, 4, 5])?;
/// let mut engine = Engine::new(&network);
/// // Document 02 (Ask 10): "P1 as a short query gives 2, 4."
/// let listed = engine.short_query(&points, 0)?;
/// assert_eq!((listed.points, listed.expanded), (&[2, 4][..], 4));
/// # Ok(())
/// # }
/// ```
#[derive(Clone, Copy, Debug, PartialEq, Eq)]
pub struct Listed<'a> {
    /// The nodes whose points are listed. "Lists are ascending by node." Document 02 (Ask 6): "a point
    /// on q isn't listed". (Ask 8): "A node is listed once, as its lockers fare alike."
    pub points: &'a [u32],
    /// "the number of nodes m that can be reached from q and have fewer than k points p (one on m
    /// included) with d(m, p) < d(m, q)". Each locker of a node is a point here.
    pub expanded: u32,
}

/// The answer of [`Table::nearer_row`](crate::Table::nearer_row).
///
/// Document 02 (Ask 1): "the call hands back the row whose first entry is nearer, the own one when
/// equal. [...] It returns the row's distances".
///
/// ```
/// use overlap::{Network, Points, Table};
///
/// # fn main() -> Result<(), overlap::Refusal> {
/// let network = Network::from_roads(3, &[(0, 1, 4), (1, 2, 3)])?;
/// let own = Table::build(&network, Points::on(&network, [0])?, 2)?;
/// let rival = Table::build(&network, Points::on(&network, [2, 2])?, 2)?;
/// let row = own.nearer_row(&rival, 1)?;
/// assert!(row.is_rivals);
/// assert_eq!(row.distances, [3, 3]);
/// # Ok(())
/// # }
/// ```
#[derive(Clone, Copy, Debug, PartialEq, Eq)]
pub struct NearerRow<'a> {
    /// Whether it is the rival's row; no when both are equally near.
    pub is_rivals: bool,
    /// The distances of the row's K places, [`NONE`] for an empty one: the part of the table itself.
    pub distances: &'a [u32],
}
