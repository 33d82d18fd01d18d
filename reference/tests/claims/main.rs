//! `docs/CLAIMS.md`: each row of its tables names files that exist, and names
//! that one of these files defines.
//!
//! What a row quotes in backticks is a path, a name or any other text. A path
//! starts with a folder of the repository or is a file of its root. Any other
//! text has to stand in a file of the row as it is, except in the first column,
//! which tells the claim in words.

mod definitions;
mod made_up;
mod repository;

use definitions::{defines, has_word, is_name};
use repository::Repository;

/// Functions of the language: a file uses them, and none defines them.
const OF_THE_LANGUAGE: [&str; 2] = ["count_ones", "trailing_zeros"];

/// A name in more than this share of the proof files tells nothing, in percent.
const MOST_COMMON: usize = 60;

#[test]
fn claims_name_what_there_is() {
    let repository = Repository::read();
    let claims = repository.text("docs/CLAIMS.md");
    assert!(claims.lines().any(|line| line.starts_with('|')));
    let faults = faults(&repository, claims);
    assert!(faults.is_empty(), "docs/CLAIMS.md\n{}", faults.join("\n"));
}

/// What a row of a table quotes.
#[derive(Default)]
struct Row<'a> {
    paths: Vec<&'a str>,
    names: Vec<&'a str>,
    texts: Vec<&'a str>,
}

impl<'a> Row<'a> {
    /// Nothing for a line that is no row.
    fn new(repository: &Repository, line: &'a str) -> Option<Row<'a>> {
        if !line.starts_with('|') {
            return None;
        }
        let mut row = Row::default();
        let mut column = 0;
        for (at, part) in line.split('`').enumerate() {
            let path = part.trim_start_matches("./");
            if at % 2 == 0 {
                column += part.matches('|').count();
            } else if repository.is_path(path) {
                row.paths.push(path);
            } else if is_name(part) {
                row.names.extend(part.split("::"));
            } else if column > 1 {
                row.texts.push(part);
            }
        }
        Some(row)
    }

    /// Whether some file of the row, given by path and text, is such.
    fn some_file(&self, repository: &Repository, such: impl Fn(&str, &str) -> bool) -> bool {
        let mut files = self.paths.iter().flat_map(|path| repository.at(path));
        files.any(|(path, text)| such(path, text))
    }

    fn defines(&self, repository: &Repository, name: &str) -> bool {
        self.some_file(repository, |path, text| defines(path, text, name))
    }

    fn faults(&self, repository: &Repository) -> Vec<String> {
        let exists = |path: &&&str| repository.at(path).next().is_some();
        let stands = |text: &&&str| self.some_file(repository, |_, file| file.contains(**text));
        let missing = self.paths.iter().filter(|path| !exists(path));
        let absent = self.texts.iter().filter(|text| !stands(text));
        let names = self.names.iter();
        missing
            .map(|path| format!("there is no {path}"))
            .chain(absent.map(|text| self.absent(text)))
            .chain(names.filter_map(|name| self.name_fault(repository, name)))
            .collect()
    }

    fn absent(&self, quoted: &str) -> String {
        format!("`{quoted}` does not stand in {}", self.paths.join(", "))
    }

    fn name_fault(&self, repository: &Repository, name: &str) -> Option<String> {
        if self.paths.is_empty() {
            return Some(format!("`{name}` has no file"));
        }
        if !self.defines(repository, name) {
            if !self.some_file(repository, |_, text| has_word(text, name)) {
                return Some(self.absent(name));
            }
            if !OF_THE_LANGUAGE.contains(&name) {
                let paths = self.paths.join(", ");
                return Some(format!("`{name}` is not defined in {paths}"));
            }
        }
        let (holding, all) = (repository.proofs_with(name), repository.proofs());
        let common = holding * 100 > all * MOST_COMMON;
        common.then(|| format!("`{name}` tells nothing: {holding} of {all} proof files have it"))
    }
}

/// Every fault of the claims, with its line.
fn faults(repository: &Repository, claims: &str) -> Vec<String> {
    let numbered = (1..).zip(claims.lines());
    let rows = numbered.filter_map(|(number, line)| Some((number, Row::new(repository, line)?)));
    rows.flat_map(|(number, row): (u32, Row)| {
        let faults = row.faults(repository).into_iter();
        faults.map(move |fault| format!("line {number}: {fault}"))
    })
    .collect()
}
