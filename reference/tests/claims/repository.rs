//! The files of a repository and the words of its proof files.

use std::collections::{BTreeMap, BTreeSet};
use std::fs;
use std::path::Path;

use crate::definitions::words;

/// The text of every file, by its path from the root.
type Files = BTreeMap<String, String>;

pub struct Repository {
    files: Files,
    proofs: usize,
    /// How many proof files have a word.
    proofs_with: BTreeMap<String, usize>,
}

impl Repository {
    pub fn read() -> Repository {
        let mut files = Files::new();
        let root = Path::new(env!("CARGO_MANIFEST_DIR")).join("..");
        read_folder(&root, "", &mut files);
        Repository::new(files)
    }

    pub fn new(files: Files) -> Repository {
        let mut proofs = 0;
        let mut proofs_with = BTreeMap::new();
        for (_, text) in files.iter().filter(|(path, _)| path.ends_with(".antt")) {
            proofs += 1;
            for word in words(text).collect::<BTreeSet<_>>() {
                *proofs_with.entry(word.to_string()).or_default() += 1;
            }
        }
        Repository {
            files,
            proofs,
            proofs_with,
        }
    }

    pub fn text(&self, path: &str) -> &str {
        &self.files[path]
    }

    pub fn proofs(&self) -> usize {
        self.proofs
    }

    pub fn proofs_with(&self, word: &str) -> usize {
        self.proofs_with.get(word).copied().unwrap_or(0)
    }

    /// Whether something quoted is meant as a path, of a file that exists or not.
    pub fn is_path(&self, quoted: &str) -> bool {
        match quoted.split_once('/') {
            Some((folder, _)) => self.at(folder).next().is_some(),
            None => self.files.contains_key(quoted),
        }
    }

    /// The file with this path, or the files of the folder, with their texts.
    pub fn at<'a>(&'a self, path: &'a str) -> impl Iterator<Item = (&'a String, &'a String)> {
        let named = path.trim_end_matches('/');
        self.files.iter().filter(move |(file, _)| {
            let rest = file.strip_prefix(named);
            rest.is_some_and(|rest| rest.is_empty() || rest.starts_with('/'))
        })
    }
}

/// Reads all but what is built.
fn read_folder(folder: &Path, prefix: &str, files: &mut Files) {
    for entry in fs::read_dir(folder).expect("a folder of the repository") {
        let entry = entry.expect("an entry of the folder");
        let name = entry.file_name().to_string_lossy().into_owned();
        let (inner, path) = (entry.path(), format!("{prefix}{name}"));
        if inner.is_file() {
            let bytes = fs::read(&inner).expect("a readable file");
            files.insert(path, String::from_utf8_lossy(&bytes).into_owned());
        } else if !["target", "out", ".git"].contains(&name.as_str()) {
            read_folder(&inner, &format!("{path}/"), files);
        }
    }
}
