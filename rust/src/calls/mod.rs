//! The engine's calls, one function each, over lent slices.
//!
//! This is `overlap.h` without unsafe code, for whoever owns the arrays already: a call lends them
//! to the engine as they are and hands back its answer. The types at the crate's root stand on
//! these.
//!
//! No call asks anything of its input: bad input is refused by a number, and [`meaning`] gives the
//! condition that the number stands for. A call answers its number alone, a [`Listing`], a
//! [`Verdict`], an [`Update`] or a [`RowPart`], as the engine returns it; [`accepted`] and the methods
//! of that name make a `Result` of it.
//!
//! The engine allocates nothing. A call that needs working space is lent it as scratch, whose
//! length [`scratch_len`] gives, or [`eager_scratch_len`] for eager, verify and the short query; the
//! arrays for its answers are lent as well.
//!
//! ```
//! use overlap::calls::{meaning, network_check, Network};
//!
//! // Two nodes and one road of weight 4 between them: the two arcs 0 to 1 and 1 to 0.
//! let network = Network { starts: &[0, 1, 2], neighbours: &[1, 0], weights: &[4, 4] };
//! assert_eq!(network_check(network), 0);
//!
//! // The return arc has weight 5.
//! let uneven = Network { weights: &[4, 5], ..network };
//! assert_eq!(network_check(uneven), 5);
//! assert_eq!(meaning(5), "an arc lacks its return of equal weight");
//! ```

// The one module of the crate that has unsafe code: each block lends slices to one call.
#![allow(unsafe_code)]

mod answer;
mod distances;
mod eager;
mod ffi;
mod households;
mod lazy;
mod lend;
mod nearer_row;
mod nearest;
mod network;
mod numbers;
mod route;
mod scratch;
mod table;
mod table_query;
mod table_remove;
mod verify;

use lend::lend;

pub use crate::NONE;
pub use distances::distances;
pub use eager::{eager, short_query};
pub use ffi::{Listing, RowPart, Update, Verdict};
pub use households::{households, sheet};
pub use lazy::{lazy, lazy_ep};
pub use nearer_row::{nearer_row, nearer_row_number, nearer_row_part, TwoTables};
pub use nearest::{nearest, Found};
pub use network::{network_check, Network};
pub use numbers::{accepted, meaning};
pub use route::route;
pub use scratch::{eager_scratch_len, scratch_len};
pub use table::{build, insert, table_check, Table, TableMut};
pub use table_query::table_query;
pub use table_remove::remove;
pub use verify::verify;
