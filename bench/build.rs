//! Finds the static libraries of the proved side and links them.

use std::env;
use std::path::PathBuf;
use std::process;

/// The bridge, and the customers' own archive.
const LIBRARIES: [&str; 2] = ["bridge", "hour_offset"];

fn main() {
    println!("cargo:rerun-if-env-changed=PEWATUNO_LIB");
    if env::var_os("CARGO_FEATURE_MOCK").is_some() {
        return;
    }
    let folder = library_folder();
    println!("cargo:rustc-link-search=native={}", folder.display());
    for name in LIBRARIES {
        let library = folder.join(format!("lib{name}.a"));
        println!("cargo:rerun-if-changed={}", library.display());
        if !library.is_file() {
            eprintln!("{} is not there.", library.display());
            eprintln!("Make it with `tools/build {name}` at the root of the repository,");
            eprintln!("or name its folder in the environment variable PEWATUNO_LIB.");
            eprintln!("The bench tests itself without it: `cargo test --features mock`.");
            process::exit(1);
        }
        println!("cargo:rustc-link-lib=static={name}");
    }
}

/// The folder named by PEWATUNO_LIB (relative ones start at this package),
/// else `target/staticlib` at the root of the repository.
fn library_folder() -> PathBuf {
    let package = PathBuf::from(env::var_os("CARGO_MANIFEST_DIR").unwrap_or_default());
    match env::var_os("PEWATUNO_LIB") {
        Some(folder) if !folder.is_empty() => package.join(folder),
        _ => package.join("../target/staticlib"),
    }
}
