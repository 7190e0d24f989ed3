//! Links the proved archive that `rt lib` writes in crates/exports.
use std::path::Path;

fn main() {
    let archive = Path::new(env!("CARGO_MANIFEST_DIR")).join("../crates/exports/out");
    println!("cargo:rustc-link-search=native={}", archive.display());
    println!("cargo:rustc-link-lib=static=exports");
    println!("cargo:rerun-if-changed={}", archive.join("libexports.a").display());
}
