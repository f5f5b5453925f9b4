//! Networks and points from plain text.
//!
//! A road list has one road a line: its two junctions and its weight, in base ten, with spaces or
//! tabs between them. A list of points has one locker a line: its junction. A junction that comes
//! again has one locker more, 15 at most. Lists of households and of sites are written alike. Blank
//! lines, what follows a `#`, and a byte order mark before the first line are left out. A line ends
//! with or without a carriage return.
//!
//! The junctions of a road list are 0 to the largest that it names; those between that no road names
//! are junctions without a road. A line `nodes n` before the first road says that they are 0 to
//! n - 1, so that the last ones may have no road either.
//!
//! A list that is no network, or no points of it, is turned away with its first bad line:
//!
//! ```
//! use overlap::road_list::{read_network, read_points};
//!
//! # fn main() -> Result<(), overlap::road_list::BadLine> {
//! // Network N of document 01.
//! let network = read_network("nodes 6\n0 1 4\n0 3 5\n1 2 3\n2 4 7\n3 4 3\n")?;
//! let points = read_points("2\n4\n5  # alone\n", &network)?;
//! assert_eq!((network.nodes(), points.len()), (6, 3));
//!
//! let bad = read_network("0 1 4\n\n1 0 4\n").unwrap_err();
//! assert_eq!(bad.to_string(), "line 3: the road 0-1 stands on line 1 already");
//! # Ok(())
//! # }
//! ```

use crate::{Network, Points, Refusal, Road};
use std::collections::HashMap;
use std::error::Error;
use std::fmt;

/// The first line that can't be taken, and why.
///
/// ```
/// use overlap::road_list::{read_network, BadLine, Fault};
///
/// let bad = read_network("0 1 4\n2 2 7\n").unwrap_err();
/// assert_eq!(bad, BadLine { line: 2, fault: Fault::OwnNode(2) });
/// ```
#[derive(Clone, Debug, PartialEq, Eq)]
pub struct BadLine {
    /// The number of the line; the first line is 1.
    pub line: usize,
    /// What is wrong with it.
    pub fault: Fault,
}

/// What is wrong with a line.
///
/// ```
/// use overlap::road_list::Fault;
///
/// assert_eq!(Fault::Weight(65_536).to_string(), "the weight 65536 is not 1 to 65,535");
/// ```
#[non_exhaustive]
#[derive(Clone, Debug, PartialEq, Eq)]
pub enum Fault {
    /// A line of so many fields where it has another number of them.
    Fields {
        /// The fields of the line.
        found: usize,
        /// What a line is made of.
        wanted: &'static str,
    },
    /// A field that is not a whole number of 32 bits.
    NotANumber(String),
    /// A weight that is 0 or above 65,535.
    Weight(u32),
    /// A road from a junction to itself.
    OwnNode(u32),
    /// A road between two junctions that have one already.
    RoadTwice {
        /// The lower junction.
        a: u32,
        /// The other one.
        b: u32,
        /// The line of the first road.
        first: usize,
    },
    /// A junction so large that the network would have more than 65,535.
    LargeNode(u32),
    /// A `nodes` line whose number is not 1 to 65,535.
    NodeCount(u32),
    /// A `nodes` line behind a road or another `nodes` line.
    LateNodes,
    /// A road more than 262,144.
    TooManyRoads,
    /// A junction that the network doesn't have.
    NoNode {
        /// The junction.
        node: u32,
        /// How many the network has.
        nodes: u32,
    },
    /// A junction that has 15 lockers already, or 15 households or sites.
    FullNode(u32),
    /// The end of a road list that names no junction.
    NoJunctions,
}

impl fmt::Display for BadLine {
    fn fmt(&self, f: &mut fmt::Formatter<'_>) -> fmt::Result {
        write!(f, "line {}: {}", self.line, self.fault)
    }
}

impl fmt::Display for Fault {
    fn fmt(&self, f: &mut fmt::Formatter<'_>) -> fmt::Result {
        match self {
            Self::Fields { found, wanted } => {
                let fields = if *found == 1 { "field" } else { "fields" };
                write!(f, "{found} {fields} where a line is {wanted}")
            }
            Self::NotANumber(field) => {
                let field = shown(field);
                write!(f, "`{field}` is not a whole number from 0 to 4,294,967,295")
            }
            Self::Weight(weight) => write!(f, "the weight {weight} is not 1 to 65,535"),
            Self::OwnNode(node) => write!(f, "the road leads from junction {node} to itself"),
            Self::RoadTwice { a, b, first } => {
                write!(f, "the road {a}-{b} stands on line {first} already")
            }
            Self::LargeNode(node) => write!(
                f,
                "junction {node} is above 65,534, and a network has at most 65,535 junctions"
            ),
            Self::NodeCount(nodes) => write!(f, "{nodes} junctions are not 1 to 65,535"),
            Self::LateNodes => write!(f, "`nodes` stands once, before the first road"),
            Self::TooManyRoads => write!(f, "a network has at most 262,144 roads"),
            Self::NoNode { node, nodes } => {
                write!(
                    f,
                    "there is no junction {node}: they are 0 to {}",
                    nodes.saturating_sub(1)
                )
            }
            Self::FullNode(node) => {
                write!(
                    f,
                    "junction {node} has 15 already, and a junction has at most 15"
                )
            }
            Self::NoJunctions => write!(f, "the list ends without a road or a `nodes` line"),
        }
    }
}

impl Error for BadLine {}

/// The network of a road list.
///
/// ```
/// use overlap::road_list::read_network;
///
/// # fn main() -> Result<(), overlap::road_list::BadLine> {
/// let network = read_network("# two streets\n0 1 4\n1 2 3\n")?;
/// assert!(network.roads().eq([(0, 1, 4), (1, 2, 3)]));
///
/// let message = |text| read_network(text).unwrap_err().to_string();
/// assert_eq!(message("0 1"), "line 1: 2 fields where a line is `a b weight`, with spaces between");
/// assert_eq!(message("0 1 0"), "line 1: the weight 0 is not 1 to 65,535");
/// # Ok(())
/// # }
/// ```
///
/// # Errors
///
/// The first line that can't be taken.
///
/// # Panics
///
/// Never: what the network check refuses, a line has been turned away for.
pub fn read_network(text: &str) -> Result<Network, BadLine> {
    let mut list = RoadList::default();
    for (line, fields) in lines(text) {
        let taken = list.take(line, &fields);
        taken.map_err(|fault| BadLine { line, fault })?;
    }
    let last = text.lines().count().max(1);
    let nodes = list.node_count().ok_or(BadLine {
        line: last,
        fault: Fault::NoJunctions,
    })?;
    let network = Network::from_roads(nodes, &list.roads);
    Ok(network.expect("each line has been tested"))
}

/// The points of a list, on this network. So are its households or its sites read.
///
/// ```
/// use overlap::{road_list::read_points, Network};
///
/// # fn main() -> Result<(), Box<dyn std::error::Error>> {
/// let network = Network::from_roads(3, &[(0, 1, 4)])?;
/// assert!(read_points("2\n0\n", &network)?.iter().eq([0, 2]));
///
/// // Three lockers on junction 1.
/// assert_eq!(read_points("1\n1\n1\n", &network)?.count(1), 3);
///
/// let message = |text: &str| read_points(text, &network).unwrap_err().to_string();
/// assert_eq!(message("0\n3\n"), "line 2: there is no junction 3: they are 0 to 2");
/// let full = message(&"1\n".repeat(16));
/// assert_eq!(full, "line 16: junction 1 has 15 already, and a junction has at most 15");
/// # Ok(())
/// # }
/// ```
///
/// # Errors
///
/// The first line that can't be taken.
pub fn read_points(text: &str, network: &Network) -> Result<Points, BadLine> {
    let mut points = Points::none(network);
    for (line, fields) in lines(text) {
        let taken = take_point(&fields, &mut points);
        taken.map_err(|fault| BadLine { line, fault })?;
    }
    Ok(points)
}

/// Each line that is not blank, with its number, as fields without the comment.
fn lines(text: &str) -> impl Iterator<Item = (usize, Vec<&str>)> {
    let text = text.strip_prefix('\u{feff}').unwrap_or(text);
    let numbered = (1..).zip(text.lines().map(fields));
    numbered.filter(|(_, fields)| !fields.is_empty())
}

fn fields(line: &str) -> Vec<&str> {
    let before_comment = line.split('#').next().unwrap_or_default();
    before_comment.split_whitespace().collect()
}

/// What has been read of a road list.
#[derive(Default)]
struct RoadList {
    /// n, where a `nodes` line said it.
    nodes: Option<u32>,
    roads: Vec<Road>,
    /// The line of each road, by its nodes, the lower one first.
    first_lines: HashMap<(u32, u32), usize>,
}

impl RoadList {
    fn take(&mut self, line: usize, fields: &[&str]) -> Result<(), Fault> {
        match *fields {
            ["nodes", count] => self.take_nodes(number(count)?),
            ["nodes", ..] => Err(Fault::Fields {
                found: fields.len(),
                wanted: "`nodes n`",
            }),
            [a, b, weight] => self.take_road(line, (number(a)?, number(b)?, number(weight)?)),
            _ => Err(Fault::Fields {
                found: fields.len(),
                wanted: "`a b weight`, with spaces between",
            }),
        }
    }

    fn take_nodes(&mut self, count: u32) -> Result<(), Fault> {
        if self.nodes.is_some() || !self.roads.is_empty() {
            return Err(Fault::LateNodes);
        }
        if count == 0 || count > Network::MOST_NODES {
            return Err(Fault::NodeCount(count));
        }
        self.nodes = Some(count);
        Ok(())
    }

    fn take_road(&mut self, line: usize, (a, b, weight): Road) -> Result<(), Fault> {
        for node in [a, b] {
            self.test_node(node)?;
        }
        if a == b {
            return Err(Fault::OwnNode(a));
        }
        if weight == 0 || weight > Network::MOST_WEIGHT {
            return Err(Fault::Weight(weight));
        }
        let (a, b) = (a.min(b), a.max(b));
        if let Some(&first) = self.first_lines.get(&(a, b)) {
            return Err(Fault::RoadTwice { a, b, first });
        }
        if self.roads.len() == Network::MOST_ARCS / 2 {
            return Err(Fault::TooManyRoads);
        }
        self.first_lines.insert((a, b), line);
        self.roads.push((a, b, weight));
        Ok(())
    }

    fn test_node(&self, node: u32) -> Result<(), Fault> {
        match self.nodes {
            Some(nodes) if node >= nodes => Err(Fault::NoNode { node, nodes }),
            None if node >= Network::MOST_NODES => Err(Fault::LargeNode(node)),
            _ => Ok(()),
        }
    }

    /// n, or nothing where no junction was named.
    fn node_count(&self) -> Option<u32> {
        let largest = self.roads.iter().map(|road| road.1).max();
        self.nodes.or(largest.map(|node| node + 1))
    }
}

/// Adds the locker of one line.
fn take_point(fields: &[&str], points: &mut Points) -> Result<(), Fault> {
    let [field] = *fields else {
        return Err(Fault::Fields {
            found: fields.len(),
            wanted: "one junction",
        });
    };
    let node = number(field)?;
    let nodes = points.marks().len() as u32;
    let inserted = points.insert(node);
    inserted.map_err(|refusal| match refusal {
        Refusal::Mark => Fault::FullNode(node),
        _ => Fault::NoNode { node, nodes },
    })
}

/// A field as a message shows it: a long one cut, and signs that can't be seen written out.
fn shown(field: &str) -> String {
    const MOST: usize = 40;
    let first: String = field.chars().take(MOST).collect();
    let rest = if first.len() < field.len() { ".." } else { "" };
    format!("{}{rest}", first.escape_debug())
}

/// A whole number of digits alone.
fn number(field: &str) -> Result<u32, Fault> {
    let digits = field.bytes().all(|byte| byte.is_ascii_digit());
    let parsed = field.parse().ok().filter(|_| digits);
    parsed.ok_or_else(|| Fault::NotANumber(field.to_string()))
}
