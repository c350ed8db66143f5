//! Links libscore.a from the folder SCORE_LIBRARY_DIR, seen from the root of the repository, or target/staticlib.

use std::{env, path::Path};

fn main() {
    let named = env::var("SCORE_LIBRARY_DIR").unwrap_or_default();
    let folder = if named.is_empty() { "target/staticlib" } else { &named };
    let library = Path::new(env!("CARGO_MANIFEST_DIR")).join("../..").join(folder).join("libscore.a");
    println!("cargo:rerun-if-env-changed=SCORE_LIBRARY_DIR");
    println!("cargo:rerun-if-changed={}", library.display());
    println!("cargo:rustc-link-arg-bins={}", library.display());
}
