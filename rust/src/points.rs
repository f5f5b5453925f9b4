//! The lockers.

use crate::{Network, Refusal};

/// The lockers of a network: how many stand on each node.
///
/// Document 01: "Points (lockers) are a lent byte array of n entries [...]. A point is named by its
/// node." Document 02 (Ask 8): "A point byte becomes the number of lockers there, 0 to 15."
///
/// A call is lent points beside its network. It refuses them by [`Refusal::Points`] where the
/// network has another number of nodes than the one that they were made for.
///
/// Document 02 (Ask 1): "Two byte arrays are lent, households and sites, both laid out as points." So
/// a value of this type holds either for [`Engine::households`](crate::Engine::households) and
/// [`Engine::sheet`](crate::Engine::sheet), with a household or a site for a locker.
///
/// ```
/// use overlap::{Network, Points};
///
/// # fn main() -> Result<(), overlap::Refusal> {
/// // Network N of document 01.
/// let network = Network::from_roads(6, &[(0, 1, 4), (0, 3, 5), (1, 2, 3), (2, 4, 7), (3, 4, 3)])?;
/// let points = Points::on(&network, [5, 2, 4])?;
/// assert_eq!(points.marks(), [0, 0, 1, 0, 1, 1]);
/// assert!(points.iter().eq([2, 4, 5]));
///
/// // Three lockers on node 2.
/// let points = Points::on(&network, [2, 2, 4, 5, 2])?;
/// assert_eq!(points.marks(), [0, 0, 3, 0, 1, 1]);
/// assert_eq!((points.count(2), points.len()), (3, 5));
/// # Ok(())
/// # }
/// ```
#[derive(Clone, Debug, PartialEq, Eq)]
pub struct Points {
    marks: Vec<u8>,
}

impl Points {
    /// The most lockers on one node. Document 02 (Ask 8): "0 to 15".
    ///
    /// ```
    /// use overlap::{Network, Points, Refusal};
    ///
    /// # fn main() -> Result<(), Refusal> {
    /// let network = Network::from_roads(1, &[])?;
    /// let most = Points::MOST_AT_A_NODE;
    /// assert!(Points::from_marks(&network, vec![most]).is_ok());
    /// assert_eq!(Points::from_marks(&network, vec![most + 1]), Err(Refusal::Points));
    /// # Ok(())
    /// # }
    /// ```
    pub const MOST_AT_A_NODE: u8 = 15;

    /// No points on any node of the network.
    ///
    /// ```
    /// use overlap::{Network, Points};
    ///
    /// # fn main() -> Result<(), overlap::Refusal> {
    /// let network = Network::from_roads(2, &[(0, 1, 4)])?;
    /// assert!(Points::none(&network).is_empty());
    /// # Ok(())
    /// # }
    /// ```
    #[must_use]
    pub fn none(network: &Network) -> Self {
        Self {
            marks: vec![0; network.nodes() as usize],
        }
    }

    /// Points on these nodes of the network, in any order. A node that comes several times has
    /// several lockers.
    ///
    /// ```
    /// use overlap::{Network, Points, Refusal};
    ///
    /// # fn main() -> Result<(), Refusal> {
    /// let network = Network::from_roads(2, &[(0, 1, 4)])?;
    /// assert_eq!(Points::on(&network, [1])?.marks(), [0, 1]);
    /// assert_eq!(Points::on(&network, [1, 0, 1])?.marks(), [1, 2]);
    /// assert_eq!(Points::on(&network, [2]), Err(Refusal::Node));
    /// assert_eq!(Points::on(&network, [1; 16]), Err(Refusal::Mark));
    /// # Ok(())
    /// # }
    /// ```
    ///
    /// # Errors
    ///
    /// 7 for a node that is n or more, 11 for a node that comes the 16th time; the first in the
    /// list counts.
    pub fn on(network: &Network, nodes: impl IntoIterator<Item = u32>) -> Result<Self, Refusal> {
        let mut points = Self::none(network);
        for node in nodes {
            points.insert(node)?;
        }
        Ok(points)
    }

    /// The points of a byte array: the number of lockers on each node.
    ///
    /// ```
    /// use overlap::{Network, Points, Refusal};
    ///
    /// # fn main() -> Result<(), Refusal> {
    /// let network = Network::from_roads(2, &[(0, 1, 4)])?;
    /// assert_eq!(Points::from_marks(&network, vec![0, 15])?.count(1), 15);
    /// assert_eq!(Points::from_marks(&network, vec![0, 16]), Err(Refusal::Points));
    /// assert_eq!(Points::from_marks(&network, vec![0]), Err(Refusal::Points));
    /// # Ok(())
    /// # }
    /// ```
    ///
    /// # Errors
    ///
    /// 6 where there are not n entries, or a byte is above 15.
    pub fn from_marks(network: &Network, marks: Vec<u8>) -> Result<Self, Refusal> {
        let nodes = network.nodes() as usize;
        if marks.len() == nodes && marks.iter().all(|&mark| mark <= Self::MOST_AT_A_NODE) {
            Ok(Self { marks })
        } else {
            Err(Refusal::Points)
        }
    }

    /// Adds a locker to a node. Document 02 (Ask 8): "Insert adds one".
    ///
    /// ```
    /// use overlap::{Network, Points, Refusal};
    ///
    /// # fn main() -> Result<(), Refusal> {
    /// let mut points = Points::none(&Network::from_roads(2, &[(0, 1, 4)])?);
    /// for lockers in 1..=15 {
    ///     points.insert(1)?;
    ///     assert_eq!(points.count(1), lockers);
    /// }
    /// assert_eq!(points.insert(1), Err(Refusal::Mark));
    /// # Ok(())
    /// # }
    /// ```
    ///
    /// # Errors
    ///
    /// 7 where the node is n or more, 11 where it has 15 lockers.
    pub fn insert(&mut self, node: u32) -> Result<(), Refusal> {
        let lockers = self.lockers_mut(node)?;
        if *lockers >= Self::MOST_AT_A_NODE {
            return Err(Refusal::Mark);
        }
        *lockers += 1;
        Ok(())
    }

    /// Takes a locker from a node. Document 02 (Ask 8): "remove takes one".
    ///
    /// ```
    /// use overlap::{Network, Points, Refusal};
    ///
    /// # fn main() -> Result<(), Refusal> {
    /// let mut points = Points::on(&Network::from_roads(2, &[(0, 1, 4)])?, [0, 1, 1])?;
    /// points.remove(1)?;
    /// assert!(points.contains(1));
    /// points.remove(1)?;
    /// assert_eq!(points.remove(1), Err(Refusal::Mark));
    /// # Ok(())
    /// # }
    /// ```
    ///
    /// # Errors
    ///
    /// 7 where the node is n or more, 11 where it has no locker.
    pub fn remove(&mut self, node: u32) -> Result<(), Refusal> {
        let lockers = self.lockers_mut(node)?;
        *lockers = lockers.checked_sub(1).ok_or(Refusal::Mark)?;
        Ok(())
    }

    fn lockers_mut(&mut self, node: u32) -> Result<&mut u8, Refusal> {
        self.marks.get_mut(node as usize).ok_or(Refusal::Node)
    }

    /// Whether the node has a locker; no where it is n or more.
    ///
    /// ```
    /// use overlap::{Network, Points};
    ///
    /// # fn main() -> Result<(), overlap::Refusal> {
    /// // Network N of document 01.
    /// let roads = [(0, 1, 4), (0, 3, 5), (1, 2, 3), (2, 4, 7), (3, 4, 3)];
    /// let network = Network::from_roads(6, &roads)?;
    /// let points = Points::on(&network, [2, 4, 5])?;
    /// assert!(points.contains(4));
    /// assert!(!points.contains(3) && !points.contains(6));
    /// # Ok(())
    /// # }
    /// ```
    #[must_use]
    pub fn contains(&self, node: u32) -> bool {
        self.count(node) > 0
    }

    /// How many lockers the node has; 0 where it is n or more.
    ///
    /// ```
    /// use overlap::{Network, Points};
    ///
    /// # fn main() -> Result<(), overlap::Refusal> {
    /// let network = Network::from_roads(2, &[(0, 1, 4)])?;
    /// let points = Points::on(&network, [1, 1, 1])?;
    /// assert_eq!([0, 1, 2].map(|node| points.count(node)), [0, 3, 0]);
    /// # Ok(())
    /// # }
    /// ```
    #[must_use]
    pub fn count(&self, node: u32) -> u32 {
        self.marks
            .get(node as usize)
            .map_or(0, |&lockers| lockers.into())
    }

    /// The nodes that have a locker, ascending, each once. [`count`](Self::count) says how many
    /// lockers stand on one.
    ///
    /// ```
    /// use overlap::{Network, Points};
    ///
    /// # fn main() -> Result<(), overlap::Refusal> {
    /// // Network N of document 01.
    /// let roads = [(0, 1, 4), (0, 3, 5), (1, 2, 3), (2, 4, 7), (3, 4, 3)];
    /// let network = Network::from_roads(6, &roads)?;
    /// let points = Points::on(&network, [4, 2, 5, 4])?;
    /// assert!(points.iter().eq([2, 4, 5]));
    /// # Ok(())
    /// # }
    /// ```
    pub fn iter(&self) -> impl Iterator<Item = u32> + '_ {
        (0..self.marks.len() as u32).filter(|&node| self.contains(node))
    }

    /// How many lockers there are, all of a node counted.
    ///
    /// ```
    /// use overlap::{Network, Points};
    ///
    /// # fn main() -> Result<(), overlap::Refusal> {
    /// // Network N of document 01.
    /// let roads = [(0, 1, 4), (0, 3, 5), (1, 2, 3), (2, 4, 7), (3, 4, 3)];
    /// let network = Network::from_roads(6, &roads)?;
    /// assert_eq!(Points::on(&network, [2, 4, 5])?.len(), 3);
    /// assert_eq!(Points::on(&network, [2, 4, 5, 4])?.len(), 4);
    /// # Ok(())
    /// # }
    /// ```
    #[must_use]
    pub fn len(&self) -> usize {
        self.marks.iter().map(|&lockers| usize::from(lockers)).sum()
    }

    /// Whether there are none.
    ///
    /// ```
    /// use overlap::{Network, Points};
    ///
    /// # fn main() -> Result<(), overlap::Refusal> {
    /// // Network N of document 01.
    /// let roads = [(0, 1, 4), (0, 3, 5), (1, 2, 3), (2, 4, 7), (3, 4, 3)];
    /// let network = Network::from_roads(6, &roads)?;
    /// assert!(!Points::on(&network, [2, 4, 5])?.is_empty());
    /// # Ok(())
    /// # }
    /// ```
    #[must_use]
    pub fn is_empty(&self) -> bool {
        self.marks.iter().all(|&lockers| lockers == 0)
    }

    /// The lockers on each node, as the functions of [`calls`](crate::calls) are lent them: "a lent
    /// byte array of n entries", each "the number of lockers there".
    ///
    /// ```
    /// use overlap::{Network, Points};
    ///
    /// # fn main() -> Result<(), overlap::Refusal> {
    /// // Network N of document 01.
    /// let roads = [(0, 1, 4), (0, 3, 5), (1, 2, 3), (2, 4, 7), (3, 4, 3)];
    /// let network = Network::from_roads(6, &roads)?;
    /// assert_eq!(Points::on(&network, [2, 4, 5, 4])?.marks(), [0, 0, 1, 0, 2, 1]);
    /// # Ok(())
    /// # }
    /// ```
    #[must_use]
    pub fn marks(&self) -> &[u8] {
        &self.marks
    }

    /// The same, for a call that changes one.
    pub(crate) fn marks_mut(&mut self) -> &mut [u8] {
        &mut self.marks
    }
}
