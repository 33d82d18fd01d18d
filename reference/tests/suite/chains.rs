//! The plain chain step against the words of its rule: every row of stations is
//! tried as a loop and as a chain.

use std::collections::BTreeSet;

use reference::chain::{chain_table, compulsory_legs};
use reference::gen::{all_tables, any_table, Xorshift};
use reference::hand::Verdict;
use reference::table::Leg;
use reference::LegTable;

/// The rule word by word: nothing for none, else the legs that go.
fn by_the_words(table: &LegTable) -> Option<BTreeSet<Leg>> {
    let legs = compulsory_legs(table);
    let pairs = || {
        legs.iter()
            .flat_map(|one| legs.iter().map(move |two| (one, two)))
    };
    if pairs().any(|(one, two)| one != two && (one.0 == two.0 || one.1 == two.1)) {
        return None;
    }
    let rows = rows_along(&legs);
    let closing = |row: &[usize]| (row[row.len() - 1], row[0]);
    let short = |row: &&Vec<usize>| row.len() < table.n();
    let mut short_rows = rows.iter().filter(short);
    if short_rows.any(|row| legs.contains(&closing(row))) {
        return None;
    }
    // A row that another one goes on from, at either end, can be lengthened.
    let can_be_lengthened = |row: &[usize]| {
        rows.iter()
            .any(|longer| longer.len() > row.len() && longer.windows(row.len()).any(|w| w == row))
    };
    let on_a_loop = |row: &[usize]| legs.contains(&closing(row));
    let gone = rows
        .iter()
        .filter(short)
        .filter(|row| !can_be_lengthened(row));
    let gone = gone.filter(|row| !on_a_loop(row)).map(|row| closing(row));
    Some(gone.filter(|&(i, j)| table.has(i, j)).collect())
}

/// All rows of two or more different stations with a leg from each to the next.
fn rows_along(legs: &BTreeSet<Leg>) -> Vec<Vec<usize>> {
    let mut rows: Vec<Vec<usize>> = legs.iter().map(|&(i, j)| vec![i, j]).collect();
    let mut at = 0;
    while at < rows.len() {
        let last = rows[at][rows[at].len() - 1];
        for &(_, next) in legs.iter().filter(|leg| leg.0 == last) {
            if !rows[at].contains(&next) {
                rows.push([&rows[at][..], &[next]].concat());
            }
        }
        at += 1;
    }
    rows
}

/// How often each of the three answers came.
#[derive(Default)]
struct Answers {
    none: usize,
    struck: usize,
    kept: usize,
}

impl Answers {
    /// Holds one chain step to the words and counts its answer.
    fn hold(&mut self, table: &LegTable) {
        let mut after = table.clone();
        let verdict = chain_table(&mut after);
        let Some(gone) = by_the_words(table) else {
            assert_eq!((verdict, &after), (Verdict::None, table));
            self.none += 1;
            return;
        };
        let mut expected = table.clone();
        expected.strike(&gone.iter().copied().collect::<Vec<_>>());
        assert_eq!((verdict, &after), (Verdict::Undecided, &expected));
        match gone.is_empty() {
            true => self.kept += 1,
            false => self.struck += 1,
        }
    }
}

#[test]
fn the_words_on_all_tables_up_to_four() {
    let mut answers = Answers::default();
    for n in 2..=4 {
        for table in all_tables(n) {
            answers.hold(&table);
        }
    }
    assert!(answers.none > 500 && answers.struck > 500 && answers.kept > 500);
}

#[test]
fn the_words_on_made_up_tables() {
    let mut rng = Xorshift::new(21);
    let mut answers = Answers::default();
    for _ in 0..20_000 {
        let n = rng.between(2, 12);
        answers.hold(&any_table(&mut rng, n));
    }
    assert!(answers.none > 1_000 && answers.struck > 500 && answers.kept > 1_000);
}
