//! How much is measured, and where it is written.

use super::calls::LONGEST_ROUTE;
use super::measure::Budget;
use std::path::{Path, PathBuf};
use std::time::Duration;

pub struct Settings {
    /// The networks on which engine and twins are compared first.
    pub small_networks: u64,
    /// The nodes in a row of the grid.
    pub side: u32,
    pub road_nodes: u32,
    /// k of the tables.
    pub k: u32,
    /// K, and the one on the network at the limits.
    pub places: u32,
    pub limits_places: u32,
    /// The values of K for which build is timed at the limits.
    pub build_places: Vec<u32>,
    /// The values of k of the first chart, and the sides of the grids of the second.
    pub ks: Vec<u32>,
    pub sides: Vec<u32>,
    /// The most nodes of a route that is timed beside eager.
    pub longest_beside_eager: usize,
    /// The values of k for which it is counted how far the searches go.
    pub reach_ks: Vec<u32>,
    /// How long a call of the tables is measured, and one of the charts.
    pub budget: Budget,
    pub chart_budget: Budget,
    pub document: PathBuf,
    pub charts: PathBuf,
}

impl Settings {
    pub fn from_arguments() -> Self {
        if std::env::args().any(|argument| argument == "--quick") {
            Self::quick()
        } else {
            Self::full()
        }
    }

    fn full() -> Self {
        let docs = Path::new(env!("CARGO_MANIFEST_DIR")).join("../docs");
        Self {
            small_networks: 2_000,
            side: 255,
            road_nodes: 65_535,
            k: 4,
            places: 5,
            limits_places: 17,
            build_places: vec![2, 5, 9, 17],
            ks: vec![1, 2, 4, 8, 12, 16],
            sides: vec![32, 45, 64, 90, 128, 181, 255],
            longest_beside_eager: LONGEST_ROUTE,
            reach_ks: vec![1, 2, 4, 16],
            budget: budget(1_500, 11, 64),
            chart_budget: budget(500, 5, 32),
            document: docs.join("PERFORMANCE.md"),
            charts: docs.join("performance"),
        }
    }

    fn quick() -> Self {
        let folder = Path::new(env!("CARGO_MANIFEST_DIR")).join("target/performance");
        Self {
            small_networks: 200,
            side: 64,
            road_nodes: 4_096,
            k: 2,
            limits_places: 3,
            build_places: vec![2, 3],
            ks: vec![1, 4, 16],
            sides: vec![32, 64],
            longest_beside_eager: 10,
            reach_ks: vec![1, 4],
            budget: budget(50, 3, 16),
            chart_budget: budget(50, 3, 16),
            document: folder.join("PERFORMANCE.md"),
            charts: folder,
            ..Self::full()
        }
    }
}

fn budget(milliseconds: u64, least_pairs: usize, most_pairs: usize) -> Budget {
    Budget {
        time: Duration::from_millis(milliseconds),
        least_pairs,
        most_pairs,
    }
}
