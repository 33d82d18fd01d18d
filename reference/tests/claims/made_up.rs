//! Rows on a made-up repository: sound ones pass, and each fault is told.

use crate::faults;
use crate::repository::Repository;

const LAWS: &str = "\
use a.Rounds.{isRound}
pub record Kept (w : ℕ) : Type 0 where
  pub drivable : ℕ
module _ (n : ℕ) where
  pub kept-all : Kept n
  kept-all =
      list-round (isRound n)
";

const CODE: &str = "\
// The fn told of in a comment.
use a::Called;
pub struct Table {
    rows: u64,
}
enum End {
    Stable,
}
pub fn open(sheet: &[u8]) -> End
    ensures { λ r. ⌜ r ≡ openCall {0} sheet ⌝ }
{
    helper(sheet)
}
";

fn repository() -> Repository {
    let files = [
        ("README.md", "nothing"),
        ("crates/a/proofs/Laws.antt", LAWS),
        ("crates/a/proofs/More.antt", "more : Kept\n"),
        ("crates/a/proofs/Other.antt", "other : Kept\n"),
        ("crates/a/src/lib.rt", CODE),
        (
            "crates/a/must-fail/greedy.edit",
            "file: src/lib.rt\nold: x\n",
        ),
        ("include/a.h", "int a_open(void);\n"),
    ];
    let owned = files.map(|(path, text)| (path.to_string(), text.to_string()));
    Repository::new(owned.into())
}

#[test]
fn sound_rows_have_no_fault() {
    let claims = "\
Text with `anything` that is no row.
| rule `03 0C` | names | file |
|---|---|---|
| fields | `drivable`, `kept-all` | `crates/a/proofs/Laws.antt` |
| in a folder | `more`, `other` | `crates/a/proofs` |
| code | `Table`, `End::Stable`, `open` | `crates/a/src/lib.rt` |
| a promise | `openCall` | `crates/a/src/lib.rt` |
| an edit and its text | `greedy`, `old: x` | `crates/a/must-fail/greedy.edit` |
| C and a root file | `a_open` | `include/a.h` `README.md` |
";
    assert_eq!(faults(&repository(), claims), [""; 0]);
}

/// A row, and its only fault.
const FAULTY: [(&str, &str); 13] = [
    ("`crates/a/Lost.antt`", "there is no crates/a/Lost.antt"),
    ("`more` | nowhere", "`more` has no file"),
    ("`lost` | `crates/a`", "`lost` does not stand in crates/a"),
    (
        "`r ≡ open` | `README.md`",
        "`r ≡ open` does not stand in README.md",
    ),
    // Parts of longer words.
    ("`kept` | `crates/a`", "`kept` does not stand in crates/a"),
    ("`round` | `crates/a`", "`round` does not stand in crates/a"),
    // Used: in an import, in a proof, as a type, as a function, in a comment.
    (
        "`isRound` | `crates/a`",
        "`isRound` is not defined in crates/a",
    ),
    (
        "`list-round` | `crates/a`",
        "`list-round` is not defined in crates/a",
    ),
    (
        "`Called` | `crates/a`",
        "`Called` is not defined in crates/a",
    ),
    (
        "`helper` | `crates/a`",
        "`helper` is not defined in crates/a",
    ),
    ("`told` | `crates/a`", "`told` is not defined in crates/a"),
    // In an edit, but not its name.
    ("`old` | `crates/a`", "`old` is not defined in crates/a"),
    (
        "`Kept` | `crates/a`",
        "`Kept` tells nothing: 3 of 3 proof files have it",
    ),
];

#[test]
fn each_fault_is_told() {
    let claims = FAULTY.map(|(row, _)| format!("| claim | {row} |\n"));
    let told = faults(&repository(), &claims.concat());
    let numbered = (1..).zip(FAULTY);
    let expected = numbered.map(|(number, (_, fault))| format!("line {number}: {fault}"));
    assert_eq!(told, expected.collect::<Vec<_>>());
}
