//! Counts the rounds of full tables by list checks of the proved library and
//! holds the counts to the catalogue's.
//!
//! On 2 to 10 stations every permutation is checked, on up to 6 also every list
//! of numbers from 0 to n + 1; there each answer must be the plain one too. A
//! difference ends it with status 1.

use std::process::ExitCode;
use std::time::Instant;

use reference::gen::{all_lists, Sheet};
use reference::paper::SOLUTION_COUNTS;
use reference::{card, Calls, Library, Plain, WorkState};

/// On more stations the lists are too many.
const MOST_WITH_ALL_LISTS: usize = 6;

fn main() -> ExitCode {
    let start = Instant::now();
    let faults: Vec<String> = SOLUTION_COUNTS.into_iter().flat_map(faults).collect();
    for fault in &faults {
        println!("catalogue: {fault}");
    }
    eprintln!("catalogue: {:.1} seconds", start.elapsed().as_secs_f64());
    match faults.is_empty() {
        true => ExitCode::SUCCESS,
        false => ExitCode::FAILURE,
    }
}

/// Tells the counts on n stations, and what is wrong with them.
fn faults((n, solutions): (usize, usize)) -> Vec<String> {
    let opened = Library.open(&Sheet::plain(n).bytes(), 64);
    let mut faults = Vec::new();
    if opened.number != card::TAKEN {
        faults.push(format!("the full sheet of {n} is refused"));
    }

    let permutations = permutations(&opened.state, n);
    let mut counts = vec![("permutations", permutations)];
    if n <= MOST_WITH_ALL_LISTS {
        match lists(&opened.state, n) {
            Ok(lists) => counts.push(("lists of numbers from 0 to n + 1", lists)),
            Err(list) => faults.push(format!("the plain answer to {list:?} differs")),
        }
    }
    for (kind, Count { yes, of }) in counts {
        println!("catalogue: {n} stations: yes to {yes} of {of} {kind}");
        if yes != solutions {
            faults.push(format!("{n} stations have {solutions} rounds, not {yes}"));
        }
    }
    faults
}

/// The lists that are answered with yes, of all that were checked.
#[derive(Default)]
struct Count {
    yes: usize,
    of: usize,
}

fn permutations(state: &WorkState, n: usize) -> Count {
    let mut count = Count::default();
    let mut list: Vec<u8> = (1..=n as u8).collect();
    permute(&mut list, n, &mut |list| {
        count.yes += usize::from(Library.list_check(state, list).yes);
        count.of += 1;
    });
    count
}

/// Visits the list with its first `open` numbers in every order.
fn permute(list: &mut [u8], open: usize, visit: &mut impl FnMut(&[u8])) {
    if open == 0 {
        return visit(list);
    }
    for at in 0..open {
        list.swap(at, open - 1);
        permute(list, open - 1, visit);
        list.swap(at, open - 1);
    }
}

/// The first list whose plain answer differs is an error.
fn lists(state: &WorkState, n: usize) -> Result<Count, Vec<u8>> {
    let mut count = Count::default();
    for list in all_lists(n, 0..=n as u8 + 1) {
        let checked = Library.list_check(state, &list);
        if checked != Plain.list_check(state, &list) {
            return Err(list);
        }
        count.yes += usize::from(checked.yes);
        count.of += 1;
    }
    Ok(count)
}
