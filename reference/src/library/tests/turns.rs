//! Runs in turns on the same lent words.

use crate::card::{self, Number};
use crate::gen::{any_state, split_budget, Xorshift};
use crate::library::raw;
use crate::state::WorkState;
use crate::turns::budget_of;
use crate::words::{to_words, END, LIMIT, MARK, N, PLACE, STATE_WORDS};

/// What a row of runs on the same words leaves: the number of each, the steps and
/// removals of all.
#[derive(Debug, PartialEq, Eq)]
pub struct Leaves {
    pub numbers: Vec<u32>,
    pub words: Vec<u64>,
    pub steps: u64,
    pub removed: u64,
}

/// Runs on the words as they are lent, one after the other. What a run has to write
/// holds a value before that no run gives.
pub fn run_on_words(words: &[u64], budgets: &[u32]) -> Leaves {
    let mut leaves = Leaves {
        numbers: Vec::new(),
        words: words.to_vec(),
        steps: 0,
        removed: 0,
    };
    for &budget in budgets {
        let (mut steps, mut removed) = (u32::MAX, u32::MAX);
        let number = raw::run(&mut leaves.words, budget, &mut steps, &mut removed);
        leaves.numbers.push(number);
        leaves.steps += u64::from(steps);
        leaves.removed += u64::from(removed);
    }
    leaves
}

/// Small ones are more common.
fn drawn_state(rng: &mut Xorshift) -> WorkState {
    let most = rng.pick(&[8, 8, 16, 64]);
    let n = rng.between(2, most);
    any_state(rng, n)
}

/// One word that no good state of n stations has.
fn spoil(rng: &mut Xorshift, n: usize, words: &mut [u64]) {
    let (at, wrong) = match rng.below(6) {
        0 => (N, rng.pick(&[0, 1, 65])),
        1 => (LIMIT, rng.pick(&[0, 65])),
        2 => (PLACE, n as u64 + 2),
        3 => (MARK, 2),
        4 => (END, 3),
        _ => {
            let own = rng.below(n);
            words[own] |= 1 << own;
            return;
        }
    };
    let wide = rng.pick(&[1 << 32, 1 << 63, u64::MAX]);
    words[at] = if rng.percent(70) { wrong } else { wide };
}

/// A state in lent words, one in six of them bad, and behind it up to 40 more words; and
/// the number of a run on them.
fn lent_words(rng: &mut Xorshift, state: &WorkState) -> (Vec<u64>, Number) {
    let mut words = to_words(state).to_vec();
    let mut number = card::TAKEN;
    if rng.below(6) == 0 {
        spoil(rng, state.n as usize, &mut words);
        number = card::BAD_WORK_STATE;
    }
    let behind = rng.pick(&[0, 0, 1, 40]);
    words.extend((0..behind).map(|_| rng.word()));
    (words, number)
}

#[test]
fn runs_in_turns_on_the_same_words_leave_what_one_run_leaves() {
    let mut rng = Xorshift::new(35);
    let (mut refused, mut cut) = (0, 0);
    for _ in 0..24_000 {
        let state = drawn_state(&mut rng);
        let budgets = split_budget(&mut rng, &state);
        let (words, number) = lent_words(&mut rng, &state);
        let budget = budget_of(&budgets).expect("parts of a budget");

        let mut one = run_on_words(&words, &[budget]);
        assert_eq!(one.numbers, [number.into()]);
        assert_eq!(one.words[STATE_WORDS..], words[STATE_WORDS..]);
        one.numbers = vec![number.into(); budgets.len()];
        assert_eq!(run_on_words(&words, &budgets), one);
        cut += u32::from((1..one.steps).contains(&budgets[0].into()));
        if number != card::TAKEN {
            assert_eq!((one.words, one.steps, one.removed), (words, 0, 0));
            refused += 1;
        }
    }
    assert!(refused > 3_000 && cut > 3_000);
}

#[test]
fn a_run_with_a_budget_of_0_changes_no_word() {
    let mut rng = Xorshift::new(36);
    for _ in 0..4_000 {
        let state = drawn_state(&mut rng);
        let (words, number) = lent_words(&mut rng, &state);
        let unchanged = Leaves {
            numbers: vec![number.into(); 2],
            words: words.clone(),
            steps: 0,
            removed: 0,
        };
        assert_eq!(run_on_words(&words, &[0, 0]), unchanged);
    }
}
