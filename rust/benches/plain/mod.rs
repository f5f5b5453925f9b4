//! The engine's algorithms in plain safe Rust, with Rust's own bounds checks, to compare times
//! with. Each function has the form of the engine's call, its checks and its answers.
//!
//! A call makes all of scratch zero before its work. Behind it distances, nearest, verify, eager,
//! insert, households, the sheet and the route make zero what they touched, the others the words that
//! they used. So do the engine's calls, but lazy, which makes the words of lazy-EP zero.

// The benchmark and a test use parts of this.
#![allow(dead_code, unused_imports)]

mod area;
mod distances;
mod eager;
mod households;
mod lazy;
mod lazy_ep;
mod nearer_row;
mod nearest;
mod network_check;
mod node_queue;
mod queue;
mod route;
mod sheet;
mod site;
mod table;
mod table_check;
mod table_query;
mod table_remove;
mod verify;

pub use distances::distances;
pub use eager::{eager, short_query};
pub use households::households;
pub use lazy::{lazy, lazy_and_settled};
pub use lazy_ep::{lazy_ep, lazy_ep_and_settled};
pub use nearer_row::nearer_row_part;
pub use nearest::nearest;
pub use network_check::network_check;
pub use route::route;
pub use sheet::sheet;
pub use table::{build, insert};
pub use table_check::table_check;
pub use table_query::table_query;
pub use table_remove::remove;
pub use verify::verify;
