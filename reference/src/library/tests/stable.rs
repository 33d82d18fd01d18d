//! Calls on lent words that say a stable state, which an opening and a run have left.

use super::turns::{run_on_words, Leaves};
use crate::card::{self, Number};
use crate::gen::{any_table, Xorshift};
use crate::library::raw;
use crate::program::BUDGET;
use crate::stable::stray_seeds;
use crate::words::{END, MARK, PLACE, STATE_WORDS};
use crate::written::written_sheet;

/// The word of a stable end.
const STABLE: u64 = 1;

/// Lent words that a sheet was opened into and run on, with their number of stations, if
/// the end is stable. Behind the state there are up to 40 more words.
fn stable_words(rng: &mut Xorshift) -> Option<(usize, Vec<u64>)> {
    let most = rng.pick(&[8, 8, 16, 64]);
    let n = rng.between(2, most);
    let sheet = written_sheet(&any_table(rng, n));
    let limit = rng.pick(&[1, 2, 64]);
    let length = STATE_WORDS + rng.pick(&[0, 0, 1, 40]);
    let mut words: Vec<u64> = (0..length).map(|_| rng.word()).collect();
    let (mut place, mut steps, mut removed) = (0, 0, 0);
    let opened = raw::open(&sheet, limit, &mut words, &mut place);
    let ran = raw::run(&mut words, BUDGET, &mut steps, &mut removed);
    assert_eq!([opened, ran], [card::TAKEN.into(); 2]);
    (words[END] == STABLE).then_some((n, words))
}

/// A call by hand answers this number, removes no leg and changes no word lent.
fn assert_leaves(words: &[u64], number: Number, call: impl Fn(&mut [u64], &mut u32) -> u32) {
    let (mut lent, mut removed) = (words.to_vec(), u32::MAX);
    let answer = call(&mut lent, &mut removed);
    assert_eq!((answer, removed), (number.into(), 0));
    assert_eq!(lent, words);
}

/// Every call by hand, and runs.
#[test]
fn calls_on_a_stable_state_change_no_word() {
    let mut rng = Xorshift::new(37);
    let mut stable = 0;
    for (n, words) in (0..6_000).filter_map(|_| stable_words(&mut rng)) {
        assert_leaves(&words, card::TAKEN, raw::sweep);
        assert_leaves(&words, card::TAKEN, raw::chain);
        let pass = |seed| move |lent: &mut [u64], to: &mut u32| raw::pass(lent, seed, to);
        for seed in 1..=n {
            assert_leaves(&words, card::TAKEN, pass(seed));
        }
        for seed in stray_seeds(n as u64) {
            assert_leaves(&words, card::STRAY_SEED, pass(seed as usize));
        }
        let unchanged = taken(&words, 3, 0);
        assert_eq!(run_on_words(&words, &[0, 1, u32::MAX]), unchanged);
        stable += 1;
    }
    assert!(stable > 2_000, "{stable}");
}

/// So many runs that leave these words after so many steps, with nothing removed.
fn taken(words: &[u64], runs: usize, steps: u64) -> Leaves {
    Leaves {
        numbers: vec![card::TAKEN.into(); runs],
        words: words.to_vec(),
        steps,
        removed: 0,
    }
}

/// Place, mark and end are put back to 0, 0 and open.
#[test]
fn words_opened_anew_run_to_the_same_words() {
    let mut rng = Xorshift::new(38);
    let mut stable = 0;
    for (n, words) in (0..3_000).filter_map(|_| stable_words(&mut rng)) {
        let mut anew = words.clone();
        for at in [PLACE, MARK, END] {
            anew[at] = 0;
        }
        let cycle = n as u32 + 2;
        let steps = cycle.into();
        for budget in [cycle, cycle + 1, u32::MAX] {
            assert_eq!(run_on_words(&anew, &[budget]), taken(&words, 1, steps));
        }
        let turns = [cycle - 1, 1];
        assert_eq!(run_on_words(&anew, &turns), taken(&words, 2, steps));
        stable += 1;
    }
    assert!(stable > 1_000, "{stable}");
}
