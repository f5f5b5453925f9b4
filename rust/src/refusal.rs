//! The numbers of refusal.

use std::error::Error;
use std::fmt;

/// A refused call: the first condition that it met, of document 01's table of refusals and of those that
/// document 02 adds.
///
/// Document 01: "Conditions are tried from 1 upward, those whose subject the call has; the first
/// met is returned, and a number is returned only then."
///
/// ```
/// use overlap::{Network, Refusal};
///
/// // A road from node 0 to itself.
/// let refusal = Network::from_roads(2, &[(0, 0, 4)]).unwrap_err();
/// assert_eq!(refusal, Refusal::Neighbours);
/// assert_eq!(refusal.number(), 3);
/// assert!(refusal.to_string().starts_with("refused by number 3: a neighbour is n or more"));
/// ```
// Change requests bring further numbers.
#[non_exhaustive]
#[derive(Clone, Copy, Debug, PartialEq, Eq, PartialOrd, Ord, Hash)]
#[repr(u32)]
pub enum Refusal {
    /// 1: "starts has fewer than 2 or more than 65,536 entries". A network has 1 to 65,535 nodes.
    StartsLength = 1,
    /// 2: "starts doesn't begin with 0, falls, or doesn't end with A; neighbours and weights differ
    /// in length; A above 524,288". A network has at most 262,144 roads of two arcs each.
    Starts = 2,
    /// 3: "a neighbour is n or more, is its own node, or doesn't rise strictly within a node".
    Neighbours = 3,
    /// 4: "a weight is 0 or above 65,535".
    Weights = 4,
    /// 5: "an arc lacks its return of equal weight".
    Returns = 5,
    /// 6: points (or households, or sites) has not n entries, or a byte above 15. Document 02 (Ask 8):
    /// "6 allows bytes up to 15". (Ask 1): "6 covers each byte array".
    Points = 6,
    /// 7: "a node given is n or more". Document 02 (Ask 7): "7 for each node of the list", of a route.
    Node = 7,
    /// 8: "K not 2 to 17, or a table array not n × K long". Document 02 (Ask 1): "8 each table, in the
    /// order lent."
    Table = 8,
    /// 9: "k is 0 or above 16; by table, above K - 1".
    K = 9,
    /// 10: scratch shorter than S (eager, verify and the short query: than 12 × n), or an array for
    /// answers (eager: or the visits) shorter than n (nearest: than k). Document 02 (Ask 5): "10
    /// compares with 12 × n for these." (Ask 4): "10 if the new list's array is shorter than n." Only
    /// the functions of [`calls`](crate::calls) can meet it: the types at the root own arrays that are
    /// long enough.
    Short = 10,
    /// 11: insert at 15 lockers; remove or verify at none. Document 02 (Ask 8): "11 means insert at
    /// 15, remove or verify at 0".
    Mark = 11,
    /// 12: "eager: the expanded count would exceed the limit".
    Limit = 12,
    /// 14: a route is no list of nodes "each joined by a road to the one after it". Document 02 (Ask 7):
    /// "14, after 12, if the list is empty or two nodes in sequence have no road."
    Route = 14,
}

impl Refusal {
    /// All of them, by number. 13 is the number of a request that has not landed.
    ///
    /// ```
    /// use overlap::Refusal;
    ///
    /// let numbers: Vec<u32> = Refusal::ALL.iter().map(|refusal| refusal.number()).collect();
    /// assert!(numbers.into_iter().eq((1..=12).chain([14])));
    /// ```
    pub const ALL: [Self; 13] = [
        Self::StartsLength,
        Self::Starts,
        Self::Neighbours,
        Self::Weights,
        Self::Returns,
        Self::Points,
        Self::Node,
        Self::Table,
        Self::K,
        Self::Short,
        Self::Mark,
        Self::Limit,
        Self::Route,
    ];

    /// The refusal of this number, or nothing where no call returns it.
    ///
    /// ```
    /// use overlap::Refusal;
    ///
    /// assert_eq!(Refusal::from_number(12), Some(Refusal::Limit));
    /// assert_eq!(Refusal::from_number(14), Some(Refusal::Route));
    /// assert_eq!(Refusal::from_number(0), None);
    /// assert_eq!(Refusal::from_number(13), None);
    /// ```
    #[must_use]
    pub fn from_number(number: u32) -> Option<Self> {
        Self::ALL
            .into_iter()
            .find(|refusal| refusal.number() == number)
    }

    /// The number of document 01, or of document 02 for those that it adds.
    ///
    /// ```
    /// assert_eq!(overlap::Refusal::Mark.number(), 11);
    /// ```
    #[must_use]
    pub fn number(self) -> u32 {
        self as u32
    }

    /// The condition, in the wording of document 01, for 10 with the length of Ask 5 and the array of
    /// Ask 4, for 6 and 11 with the bounds of Ask 8, for 6 with the arrays of Ask 1; of 14 in that of
    /// Ask 7.
    ///
    /// ```
    /// assert_eq!(overlap::Refusal::Node.condition(), "a node given is n or more");
    /// ```
    #[must_use]
    pub fn condition(self) -> &'static str {
        match self {
            Self::StartsLength => "starts has fewer than 2 or more than 65,536 entries",
            Self::Starts => {
                "starts doesn't begin with 0, falls, or doesn't end with A; \
                 neighbours and weights differ in length; A above 524,288"
            }
            Self::Neighbours => {
                "a neighbour is n or more, is its own node, or doesn't rise strictly within a node"
            }
            Self::Weights => "a weight is 0 or above 65,535",
            Self::Returns => "an arc lacks its return of equal weight",
            Self::Points => "points (or households, or sites) has not n entries, or a byte above 15",
            Self::Node => "a node given is n or more",
            Self::Table => "K not 2 to 17, or a table array not n × K long",
            Self::K => "k is 0 or above 16; by table, above K - 1",
            Self::Short => {
                "scratch shorter than S (eager, verify and the short query: than 12 × n), or an array \
                 for answers (eager: or the visits) shorter than n (nearest: than k)"
            }
            Self::Mark => "insert at 15 lockers; remove or verify at none",
            Self::Limit => "eager: the expanded count would exceed the limit",
            Self::Route => "route: the list is empty or two nodes in sequence have no road",
        }
    }
}

impl fmt::Display for Refusal {
    fn fmt(&self, f: &mut fmt::Formatter<'_>) -> fmt::Result {
        write!(
            f,
            "refused by number {}: {}",
            self.number(),
            self.condition()
        )
    }
}

impl Error for Refusal {}
