//! Which lockers does a site receive? The overlap engine, for Rust.
//!
//! The engine works on a network of junctions and roads on which lockers stand, and answers which
//! lockers have a new site among their k nearest, by road distance. It is written in Rattle and
//! proved: each call of it meets a contract that says what document 01, the requirements of the
//! build, says, with what document 02 changed: several lockers at one junction (Ask 8), less scratch
//! for eager, verify and the short query (Ask 5), eager's visits (Ask 4), no locker on the list of a
//! site at its own junction (Ask 6), the households that a site wins against a rival's (Ask 1), the two
//! nearest for the short query (Ask 10), and the lockers that any stop of a route touches (Ask 7). What a
//! sheet adds up to is proved too (Ask 13). Each item of this crate quotes the sentence that it is.
//!
//! | Type | What it is |
//! |---|---|
//! | [`Network`] | junctions and roads; only networks that the network check accepts exist |
//! | [`Points`] | the lockers: how many stand on each node, 0 to 15; households and sites as well |
//! | [`Engine`] | the calls without a table, on one network: [distances](Engine::distances), [nearest](Engine::nearest), [verify](Engine::verify), [eager](Engine::eager), [the short query](Engine::short_query), [lazy](Engine::lazy), [lazy-EP](Engine::lazy_ep), [households](Engine::households), [the sheet](Engine::sheet), [routes](Engine::route) |
//! | [`Table`] | the K nearest points of each node, with the points that it stands for: [build](Table::build), [insert](Table::insert), [remove](Table::remove), [query](Table::query), [check](Table::check), [the nearer row](Table::nearer_row) |
//! | [`Refusal`] | why a call was refused: one case for each number of document 01, and for 14 of document 02 |
//!
//! [`road_list`] reads a network and its points from plain text, with messages that name the line,
//! and [`calls`] has each call over slices that the caller owns, as `overlap.h` has them for C. The
//! example `roads` does the first, the example `network_n` shows all calls.
//!
//! ```
//! use overlap::{Engine, Network, Points, Refusal, Table};
//!
//! # fn main() -> Result<(), Refusal> {
//! // Network N of document 01: six nodes, five roads, points on 2, 4 and 5.
//! let roads = [(0, 1, 4), (0, 3, 5), (1, 2, 3), (2, 4, 7), (3, 4, 3)];
//! let network = Network::from_roads(6, &roads)?;
//! let points = Points::on(&network, [2, 4, 5])?;
//!
//! // P2: a site at node 0 is among the two nearest of points 2 and 4. To know it, eager expands four
//! // nodes, the nearest to the site first.
//! let mut engine = Engine::new(&network);
//! let expansion = engine.eager(&points, 0, 2, 65_535)?;
//! assert_eq!((expansion.points, expansion.expanded), (&[2, 4][..], 4));
//! assert_eq!(expansion.visits, [0, 1, 3, 2]);
//!
//! // P8 and P10: the table, and the table once node 0 has a point too.
//! let mut table = Table::build(&network, points, 2)?;
//! assert!(table.row(0)?.iter().eq([(2, 7), (4, 8)]));
//! assert_eq!(table.insert(0)?, 4);
//! assert!(table.row(2)?.iter().eq([(2, 0), (0, 7)]));
//!
//! // A second locker on node 0 changes its own row alone, as the others are cut after two places.
//! assert_eq!(table.insert(0)?, 1);
//! assert!(table.row(0)?.iter().eq([(0, 0), (0, 0)]));
//!
//! // Households on 0, 1 and 3, two of them on 1, and sites on 2 and 4: which does the site on 2 win,
//! // and how many does each site win?
//! let households = Points::on(&network, [0, 1, 1, 3])?;
//! let sites = Points::on(&network, [2, 4])?;
//! assert_eq!(engine.households(&households, &sites, 2, 1)?, [0, 1]);
//! assert_eq!(engine.sheet(&households, &sites)?, [0, 0, 3, 0, 1, 0]);
//!
//! // A van that stops at 3, 0 and 1 touches the locker on 4 from 3, and the one on 2 from 0 and 1.
//! let points = Points::on(&network, [2, 4, 5])?;
//! assert_eq!(engine.route(&points, &[3, 0, 1], 1)?, [2, 4]);
//!
//! // N has no node 6.
//! assert_eq!(table.query(6, 1), Err(Refusal::Node));
//! # Ok(())
//! # }
//! ```
//!
//! Your crate depends on this one by its path, as in `overlap = { path = "../overlap/rust" }`. It
//! links `target/staticlib/liboverlap.a`, which `tools/staticlib` writes, run in the
//! repository's root.
//!
//! The proof covers the engine. It does not cover this crate: the tests compare its C declarations
//! with `overlap.h` and with the engine's own text, and its answers with plain Rust that is written
//! from document 01 alone. The crate has no dependencies, and unsafe code in [`calls`] only.

#![warn(missing_docs)]
#![deny(unsafe_code, unsafe_op_in_unsafe_fn)]

mod answers;
mod buffers;
pub mod calls;
mod engine;
mod network;
mod points;
mod refusal;
pub mod road_list;
mod table;

pub use answers::{Distances, Expansion, Listed, NearerRow, Nearest};
pub use engine::Engine;
pub use network::{Network, Road};
pub use points::Points;
pub use refusal::Refusal;
pub use table::Table;

/// Document 01: "NONE = 4,294,967,295 is an associated constant of the distance and stands for
/// "can't be reached" or "empty place"."
///
/// ```
/// assert_eq!(overlap::NONE, u32::MAX);
/// ```
pub const NONE: u32 = 4_294_967_295;
