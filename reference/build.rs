//! Links the engine's static library into the tests and benchmarks, and into nothing else.

use std::env;
use std::path::{Path, PathBuf};

/// Without the file the library still builds; the differential test then says what is missing.
/// Another library is taken by `ENGINE`, as seen from this package.
fn main() {
    let package = PathBuf::from(env::var("CARGO_MANIFEST_DIR").expect("cargo names the package"));
    let engine = env::var("ENGINE").unwrap_or("../target/staticlib/libcapi.a".to_string());
    let engine = package.join(engine);
    println!("cargo:rerun-if-changed=build.rs");
    println!("cargo:rerun-if-env-changed=ENGINE");
    println!("cargo:rerun-if-changed={}", engine.display());
    println!("cargo:rustc-check-cfg=cfg(engine)");
    if engine.is_file() {
        println!("cargo:rustc-cfg=engine");
        link(&package, &engine);
    }
}

/// Cargo refuses the instruction for benchmarks in a package that has none.
fn link(package: &Path, engine: &Path) {
    println!("cargo:rustc-link-arg-tests={}", engine.display());
    let benches = package.join("benches");
    println!("cargo:rerun-if-changed={}", benches.display());
    if benches.is_dir() {
        println!("cargo:rustc-link-arg-benches={}", engine.display());
    }
}
