//! Links libscore.a from the folder SCORE_LIBRARY_DIR, seen from the root of the repository, or target/staticlib, and
//! what include/score.h has inline.

#[path = "src/sizes.rs"]
mod sizes;

use std::path::Path;
use std::{env, fs, process::Command};

fn main() {
    let root = Path::new(&env::var("CARGO_MANIFEST_DIR").unwrap()).join("..");
    let named = env::var("SCORE_LIBRARY_DIR").unwrap_or_default();
    let folder = root.join(if named.is_empty() { "target/staticlib" } else { &named });
    let header = root.join("include");
    let built = env::var("OUT_DIR").unwrap();
    for changed in [folder.join("libscore.a"), header.join("score.h"), "src/header.c".into(), "src/sizes.rs".into()] {
        println!("cargo:rerun-if-changed={}", changed.display());
    }
    println!("cargo:rerun-if-env-changed=SCORE_LIBRARY_DIR");

    let held = |(name, value): &(&str, u64)| format!("_Static_assert(SCORE_{name} == {value}, \"src/sizes.rs\");\n");
    let sizes: String = sizes::ALL.iter().map(held).collect();
    fs::write(format!("{built}/sizes.h"), sizes).unwrap();

    let compiler = env::var("CC").unwrap_or("gcc".into());
    let flags = ["-std=c11", "-O2", "-Wall", "-Wextra", "-pedantic", "-Werror"];
    run(Command::new(compiler)
        .args(flags)
        .arg("-I")
        .arg(&header)
        .args(["-I", &built])
        .args(["-c", "src/header.c", "-o"])
        .arg(format!("{built}/header.o")));
    run(Command::new("ar").arg("rcs").arg(format!("{built}/libheader.a")).arg(format!("{built}/header.o")));
    println!("cargo:rustc-link-search=native={built}");
    println!("cargo:rustc-link-lib=static=header");
    println!("cargo:rustc-link-search=native={}", folder.display());
    println!("cargo:rustc-link-lib=static=score");
}

fn run(command: &mut Command) {
    let status = command.status().unwrap_or_else(|error| panic!("{command:?}: {error}"));
    assert!(status.success(), "{command:?}: {status}");
}
