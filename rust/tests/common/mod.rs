//! What the test programs and the benchmarks share. All of it is written from document 01, with what
//! Asks 1, 4, 5, 6, 7, 8 and 10 of document 02 change, and knows nothing of how the engine works.

// Each program uses a part of this.
#![allow(dead_code)]

pub mod all_pairs;
pub mod book;
pub mod call;
pub mod change;
pub mod change_cases;
pub mod damage;
pub mod eager;
pub mod faults;
pub mod households;
pub mod inputs;
pub mod largest;
pub mod lent;
pub mod nearest_rows;
pub mod network;
pub mod numbers;
pub mod plain;
pub mod random;
pub mod route;
pub mod rows;
pub mod searches;
pub mod shapes;
pub mod site;
pub mod table;
pub mod table_damage;
pub mod tally;
pub mod verify;
pub mod walks;
