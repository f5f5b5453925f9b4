//! Links the engine's static library, which `tools/staticlib` builds from the repository root.

use std::env;
use std::path::Path;

fn main() {
    let root = env::var("CARGO_MANIFEST_DIR").expect("cargo sets CARGO_MANIFEST_DIR");
    let directory = format!("{root}/../target/staticlib");
    let library = format!("{directory}/liboverlap.a");
    if !Path::new(&library).exists() {
        println!("cargo:warning=liboverlap.a is missing: `tools/staticlib` builds it");
    }
    println!("cargo:rustc-link-search=native={directory}");
    println!("cargo:rustc-link-lib=static=overlap");
    println!("cargo:rerun-if-changed={library}");
    println!("cargo:rerun-if-changed=build.rs");
}
