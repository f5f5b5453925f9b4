//! Reads a road list and a list of points, checks them, and prints who receives what.
//!
//! `cargo run --release --example roads -- ROADS POINTS [--site q].. [--k k] [--K K] [--visits]
//! [--route a,b,..].. [--households FILE --sites FILE]`
//!
//! [`overlap::road_list`] says how the lists are written; `examples/data` has two of each. Without
//! `--site` every junction is taken as a site. k is 1 unless it is given, and K is k + 1. With
//! `--visits` the junctions that eager expands for each site are printed too, with `--route` the lockers
//! that any stop of a route touches, with `--households` and `--sites`, lists as that of the points, the
//! households that each site wins. A bad line or a bad route is answered by a message that names it, and
//! by exit status 1. `--help` says all this.

mod report;

use std::env;
use std::ffi::OsString;
use std::io::{stderr, stdout};
use std::process::ExitCode;

fn main() -> ExitCode {
    let arguments: Vec<OsString> = env::args_os().skip(1).collect();
    ExitCode::from(report::run(&arguments, &mut stdout(), &mut stderr()))
}
