//! The catalogue's example and solution counts.

use reference::gen::{all_lists, any_table, Xorshift};
use reference::list::is_round;
use reference::paper::{catalogue, SOLUTION_COUNTS};
use reference::rounds::rounds;
use reference::{list_check, vectors, Fast, LegTable};

use crate::scripts::answers;
use crate::{opened, ALL};

/// Every list of n stations.
fn lists_of(n: usize) -> impl Iterator<Item = Vec<u8>> {
    all_lists(n, 1..=n as u8)
}

fn as_bytes(successors: &[usize]) -> Vec<u8> {
    successors.iter().map(|&next| next as u8).collect()
}

#[test]
fn solution_counts_by_enumerated_rounds() {
    for (n, count) in SOLUTION_COUNTS {
        let table = LegTable::full(n);
        let found = rounds(&table);
        assert_eq!(found.len(), count);
        assert!(found.iter().all(|successors| is_round(successors)));
    }
}

#[test]
fn solution_counts_by_list_checks() {
    for (n, count) in &SOLUTION_COUNTS[..5] {
        let state = opened(&LegTable::full(*n));
        for calls in ALL {
            let yes = lists_of(*n).filter(|list| calls.list_check(&state, list).yes);
            assert_eq!(yes.count(), *count);
        }
    }
}

/// The vectors check every list of 2 to 5 stations on the full table.
#[test]
fn solution_counts_in_the_vectors() {
    let text = answers(&Fast, vectors::script().bytes());
    let text = String::from_utf8(text).expect("text");
    let openings: Vec<&str> = text.split("\nopen ").collect();
    for (n, count) in &SOLUTION_COUNTS[..4] {
        let full = format!("0 at 0\nstate {}\n", opened(&LegTable::full(*n)));
        let yes = openings.iter().filter_map(|opening| {
            let checks: Vec<&str> = opening.strip_prefix(&full)?.lines().collect();
            let all = checks.len() == n.pow(*n as u32);
            let all = all && checks.iter().all(|line| line.starts_with("list 0 "));
            let yes = checks.iter().filter(|line| line.ends_with(" yes"));
            all.then_some(yes.count())
        });
        assert_eq!(yes.collect::<Vec<_>>(), [*count]);
    }
}

#[test]
fn list_checks_accept_each_round_of_seven_and_eight() {
    for n in [7, 8] {
        let table = LegTable::full(n);
        let state = opened(&table);
        for successors in rounds(&table) {
            for calls in ALL {
                assert!(calls.list_check(&state, &as_bytes(&successors)).yes);
            }
        }
    }
}

#[test]
fn all_solutions_of_the_example() {
    let state = opened(&catalogue());
    for calls in ALL {
        let yes: Vec<_> = lists_of(4)
            .filter(|list| calls.list_check(&state, list).yes)
            .collect();
        assert_eq!(yes, [[3, 1, 4, 2], [4, 1, 2, 3]]);
    }
}

#[test]
fn list_checks_agree_with_enumerated_rounds() {
    let mut rng = Xorshift::new(6);
    for _ in 0..60 {
        let n = rng.between(2, 5);
        let table = any_table(&mut rng, n);
        let found: Vec<_> = rounds(&table).iter().map(|round| as_bytes(round)).collect();
        for list in lists_of(n) {
            let yes = list_check(&opened(&table), &list).yes;
            assert_eq!(yes, found.contains(&list));
        }
    }
}
