//! With the feature `library`: links the archives of the proved library.

use std::env;
use std::path::Path;
use std::process;

/// `./build NAME` writes libNAME.a.
const NAMES: [&str; 2] = ["loungeegret", "measured"];
const FOLDER_VARIABLE: &str = "LOUNGEEGRET_LIB";
const USUAL_FOLDER: &str = "../target/staticlib";

fn main() {
    println!("cargo:rerun-if-changed=build.rs");
    println!("cargo:rerun-if-env-changed={FOLDER_VARIABLE}");
    if env::var_os("CARGO_FEATURE_LIBRARY").is_some() {
        let named = env::var_os(FOLDER_VARIABLE).unwrap_or_else(|| USUAL_FOLDER.into());
        // A relative folder is taken from this package.
        let folder = Path::new(env!("CARGO_MANIFEST_DIR")).join(named);
        println!("cargo:rustc-link-search=native={}", folder.display());
        for name in NAMES {
            link(&folder, name);
        }
    }
}

fn link(folder: &Path, name: &str) {
    let archive = folder.join(format!("lib{name}.a"));
    println!("cargo:rerun-if-changed={}", archive.display());
    if !archive.is_file() {
        eprintln!("{} is missing.", archive.display());
        eprintln!("Run `./build {name}` in the root of the repository,");
        eprintln!("or set {FOLDER_VARIABLE} to the folder that holds the archives.");
        process::exit(1);
    }
    println!("cargo:rustc-link-lib=static={name}");
}
