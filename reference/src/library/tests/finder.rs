//! Searches on lent words into a lent list.

use crate::calls::{Calls, Fast};
use crate::card::{self, Number};
use crate::finder::{Outcome, Sought};
use crate::gen::{any_state, Xorshift};
use crate::library::{outcome, raw, NO_STATE};
use crate::state::WorkState;
use crate::words::{to_words, Words, END, LIMIT, MARK, N, PLACE, STATE_WORDS};

/// Bytes before and after the list, which no call may write to.
const AROUND: usize = 24;

/// Stands for no station.
const UNWRITTEN: u8 = 0xA5;

/// What a call answers and leaves.
#[derive(Clone, Debug, PartialEq, Eq)]
struct Leaves {
    number: u32,
    words: Vec<u64>,
    /// The list with the bytes around it.
    bytes: Vec<u8>,
    outcome: u32,
    nodes: u32,
}

/// Searches on the words into a list of this length. What a call has to write holds a
/// value before that no call gives.
fn search(words: &[u64], budget: u32, length: usize) -> Leaves {
    let mut leaves = Leaves {
        number: u32::MAX,
        words: words.to_vec(),
        bytes: vec![UNWRITTEN; length + 2 * AROUND],
        outcome: 904,
        nodes: u32::MAX,
    };
    let list = &mut leaves.bytes[AROUND..AROUND + length];
    let (outcome, nodes) = (&mut leaves.outcome, &mut leaves.nodes);
    leaves.number = raw::first_round(&leaves.words, budget, list, outcome, nodes);
    leaves
}

/// What is left by this answer: the words as they were, and nothing written around the
/// list.
fn expected(words: &[u64], sought: Sought, list: &[u8]) -> Leaves {
    let around = [UNWRITTEN; AROUND];
    Leaves {
        number: sought.number.into(),
        words: words.to_vec(),
        bytes: [&around, list, &around].concat(),
        outcome: sought.outcome.code(),
        nodes: sought.nodes,
    }
}

fn refused(words: &[u64], number: Number, length: usize) -> Leaves {
    let sought = Sought {
        number,
        outcome: Outcome::Refused,
        nodes: 0,
    };
    expected(words, sought, &vec![UNWRITTEN; length])
}

fn drawn_state(rng: &mut Xorshift) -> WorkState {
    let most = rng.pick(&[8, 8, 8, 16, 64]);
    let n = rng.between(2, most);
    any_state(rng, n)
}

/// The words of a state with up to 40 words behind them.
fn lent_words(rng: &mut Xorshift, state: &WorkState) -> Vec<u64> {
    let behind = rng.pick(&[0, 0, 1, 40]);
    let more = (0..behind).map(|_| rng.word());
    to_words(state).into_iter().chain(more).collect()
}

#[test]
fn searches_write_the_list_and_nothing_else() {
    let mut rng = Xorshift::new(38);
    let mut ended = [0; 4];
    for _ in 0..1_500 {
        let state = drawn_state(&mut rng);
        let words = lent_words(&mut rng, &state);
        let most = if state.n > 16 { 3 } else { 200 };
        let budget = rng.below(most) as u32;
        let mut list = vec![UNWRITTEN; state.n as usize];
        let sought = Fast.first_round(&state, budget, &mut list);
        let leaves = search(&words, budget, list.len());
        assert_eq!(leaves, expected(&words, sought, &list), "{state}");
        ended[outcome(leaves.outcome).code() as usize] += 1;
    }
    assert!(ended[1..].iter().all(|&count| count > 100), "{ended:?}");
}

#[test]
fn too_few_words_write_nothing() {
    let mut rng = Xorshift::new(39);
    let words = to_words(&any_state(&mut rng, 6));
    for length in 0..STATE_WORDS {
        for list in [0, 5, 6, 7] {
            let leaves = search(&words[..length], 9, list);
            let untouched = Leaves {
                number: NO_STATE,
                words: words[..length].to_vec(),
                bytes: vec![UNWRITTEN; list + 2 * AROUND],
                outcome: 904,
                nodes: u32::MAX,
            };
            assert_eq!(leaves, untouched);
        }
    }
}

/// The words with each one changed to what no good state of n stations has.
fn bad_words(n: usize, words: &Words) -> Vec<Words> {
    let wide = [1 << 32, (1 << 32) + 1, 1 << 63, u64::MAX];
    let near = [
        (N, 0),
        (N, 1),
        (N, 65),
        (LIMIT, 0),
        (LIMIT, 65),
        (PLACE, n as u64 + 2),
        (MARK, 2),
        (END, 3),
    ];
    let far = [N, LIMIT, PLACE, MARK, END].map(|at| wide.map(|word| (at, word)));
    let own = (0..n).map(|at| (at, words[at] | 1 << at));
    let all = near.into_iter().chain(far.into_iter().flatten()).chain(own);
    all.map(|(at, word)| {
        let mut bad = *words;
        bad[at] = word;
        bad
    })
    .collect()
}

/// A bad state is refused before the length of the list is.
#[test]
fn refusals_leave_the_list() {
    let mut rng = Xorshift::new(40);
    for _ in 0..40 {
        let state = drawn_state(&mut rng);
        let (n, words) = (state.n as usize, to_words(&state));
        let budget = rng.pick(&[0, 1, u32::MAX]);
        for length in [0, 1, n - 1, n + 1, 64, 65, 300] {
            if length != n {
                let leaves = search(&words, budget, length);
                assert_eq!(leaves, refused(&words, card::WRONG_LIST_LENGTH, length));
            }
        }
        for bad in bad_words(n, &words) {
            for length in [0, n, n + 1] {
                let leaves = search(&bad, budget, length);
                assert_eq!(leaves, refused(&bad, card::BAD_WORK_STATE, length));
            }
        }
    }
}

/// The numbers that the header gives to the outcomes.
#[test]
fn the_header_tells_the_outcomes() {
    for (name, outcome) in [
        ("REFUSED", Outcome::Refused),
        ("FOUND", Outcome::Found),
        ("NO_ROUND", Outcome::NoRound),
        ("USED_UP", Outcome::UsedUp),
    ] {
        assert!(super::header_has(name, outcome.code() as usize), "{name}");
    }
}
