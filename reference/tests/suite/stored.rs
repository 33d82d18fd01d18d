//! The vectors that the proved program `cases` is held to are those of this
//! package: its script, and its plain answers; and the section of previews,
//! which is stored by itself.

use std::fs;
use std::path::{Path, PathBuf};

use reference::{vectors, Plain};

use crate::scripts::answers;

const AGAIN: &str = "\
To make both files again, in the root of the repository:
  cargo run --release --offline --manifest-path reference/Cargo.toml --bin make_cases -- crates/cases/stdin
  cargo run --release --offline --manifest-path reference/Cargo.toml --bin cases < crates/cases/stdin > crates/cases/stdout
Those of previews are made in the same way, by make_cases -- --previews reference/previews.stdin.";

const CASES: &str = "crates/cases";

/// Where the section of previews is stored.
const REFERENCE: &str = "reference";

fn path_of(folder: &str, name: &str) -> PathBuf {
    let root = Path::new(env!("CARGO_MANIFEST_DIR")).join("..");
    root.join(folder).join(name)
}

/// Holds a stored file to the bytes that are made here.
fn assert_stored(folder: &str, name: &str, made: &[u8]) {
    let stored = fs::read(path_of(folder, name)).unwrap_or_default();
    if stored == made {
        return;
    }
    let common = stored
        .iter()
        .zip(made)
        .take_while(|(one, other)| one == other);
    let (at, stored, made) = (common.count(), stored.len(), made.len());
    panic!(
        "{folder}/{name} ({stored} bytes) is not what is made ({made} bytes): \
         they differ at byte {at}.\n{AGAIN}"
    );
}

#[test]
fn the_stored_script_is_the_one_made() {
    assert_stored(CASES, "stdin", vectors::script().bytes());
}

#[test]
fn the_stored_answers_are_the_plain_ones() {
    assert_stored(CASES, "stdout", &answers(&Plain, vectors::script().bytes()));
}

#[test]
fn the_stored_previews_are_those_made() {
    let script = vectors::previews();
    assert_stored(REFERENCE, "previews.stdin", script.bytes());
    assert_stored(
        REFERENCE,
        "previews.stdout",
        &answers(&Plain, script.bytes()),
    );
}

/// The program reads no further than its constant says.
#[test]
fn the_program_reads_the_whole_script() {
    let source = fs::read_to_string(path_of(CASES, "src/main.rt")).expect("the program's source");
    let longest = source.lines().find_map(|line| {
        let value = line.strip_prefix("const SCRIPT: usize = ")?;
        value.strip_suffix(';')?.parse().ok()
    });
    assert!(Some(vectors::script().bytes().len()) <= longest);
}
