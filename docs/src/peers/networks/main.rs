//! Writes three networks of the benchmark, grid, road-like and limits, into a folder, one file each.
//!
//! A file holds starts, neighbours, weights and the sites that the benchmark asks about: of each the
//! length and then the entries, all as 32-bit words, lowest byte first.

// The modules are the benchmark's and the tests', so that there is no second generator; a part of
// each is used here.
#![allow(dead_code)]

#[path = "../../../../rust/benches/performance/calls.rs"]
mod calls;
#[path = "../../../../rust/tests/common/mod.rs"]
mod common;
#[path = "../../../../rust/benches/performance/lent.rs"]
mod lent;
#[path = "../../../../rust/benches/performance/measure.rs"]
mod measure;
#[path = "../../../../rust/benches/performance/networks.rs"]
mod networks;
#[path = "../../../../rust/benches/performance/outcome.rs"]
mod outcome;
#[path = "../../../../rust/benches/plain/mod.rs"]
mod plain;
#[path = "../../../../rust/benches/performance/roads.rs"]
mod roads;
#[path = "../../../../rust/benches/performance/settings.rs"]
mod settings;

use networks::{limits, roads, streets, Subject};
use settings::Settings;
use std::path::Path;
use std::{env, fs, io};

fn push(bytes: &mut Vec<u8>, words: &[u32]) {
    bytes.extend((words.len() as u32).to_le_bytes());
    bytes.extend(words.iter().flat_map(|word| word.to_le_bytes()));
}

fn write(subject: &Subject, k: u32, folder: &Path) -> io::Result<()> {
    let sites: Vec<u32> = subject.queries(k).iter().map(|query| query.site).collect();
    let network = &subject.network;
    let mut bytes = Vec::new();
    for words in [
        &network.starts,
        &network.neighbours,
        &network.weights,
        &sites,
    ] {
        push(&mut bytes, words);
    }
    fs::write(folder.join(subject.name), bytes)
}

fn main() -> io::Result<()> {
    let folder = env::args().nth(1).expect("the folder to write into");
    let settings = Settings::from_arguments();
    for subject in [streets(settings.side), roads(settings.road_nodes), limits()] {
        write(&subject, settings.k, Path::new(&folder))?;
    }
    Ok(())
}
