//! Links target/staticlib/librunnelopal.a, which `.ci/build runnelopal` builds.
use std::path::Path;

fn main() {
    let root = Path::new(env!("CARGO_MANIFEST_DIR")).join("../..");
    let folder = root.join("target/staticlib");
    println!("cargo:rustc-link-search=native={}", folder.display());
    println!("cargo:rustc-link-lib=static=runnelopal");
    println!("cargo:rerun-if-changed={}", folder.join("librunnelopal.a").display());
}
