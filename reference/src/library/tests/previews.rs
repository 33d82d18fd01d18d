//! Previews on lent words: a state that is only read, and a table of legs.

use crate::calls::{Calls, Fast};
use crate::card::{self, Number};
use crate::gen::{any_state, any_table, ring, Xorshift};
use crate::library::{handed_back, raw, NO_STATE};
use crate::preview::laws::number_due;
use crate::preview::HandStep;
use crate::stable::stray_seeds;
use crate::state::{End, WorkState};
use crate::words::{to_words, word_of_end, END, LIMIT, MARK, N, PLACE, STATE_WORDS};
use crate::written::written_sheet;

const LEGS_WORDS: usize = 64;

/// What is lent to a preview, and what it leaves.
#[derive(Clone, Debug, PartialEq, Eq)]
struct Lent {
    state: Vec<u64>,
    legs: Vec<u64>,
    end: u64,
}

/// No preview gives such a word of an end.
const UNWRITTEN: u64 = 906;

impl Lent {
    /// Words of a state, and words for the legs that no preview of it leaves.
    fn of(words: &[u64]) -> Lent {
        Lent {
            state: words.to_vec(),
            legs: vec![u64::MAX; LEGS_WORDS],
            end: UNWRITTEN,
        }
    }

    /// The same with up to 40 more words behind each.
    fn with_more(rng: &mut Xorshift, words: &[u64]) -> Lent {
        let mut lent = Lent::of(words);
        for words in [&mut lent.state, &mut lent.legs] {
            let behind = rng.pick(&[0, 0, 1, 40]);
            words.extend((0..behind).map(|_| rng.word()));
        }
        lent
    }

    fn preview(&mut self, step: HandStep) -> u32 {
        raw::preview(&self.state, step, &mut self.legs, &mut self.end)
    }

    /// What a preview leaves that shows these legs and this end.
    fn showing(&self, legs: &[u64; LEGS_WORDS], end: u64) -> Lent {
        Lent {
            state: self.state.clone(),
            legs: [&legs[..], &self.legs[LEGS_WORDS..]].concat(),
            end,
        }
    }

    /// A preview answers this number and shows nothing: it writes 64 words of 0, and the word
    /// of the end as it stands.
    fn assert_shows_nothing(&self, step: HandStep, number: Number) {
        let mut after = self.clone();
        assert_eq!(after.preview(step), number.into());
        assert_eq!(after, self.showing(&[0; LEGS_WORDS], self.state[END]));
    }
}

fn drawn_state(rng: &mut Xorshift) -> WorkState {
    let most = rng.pick(&[8, 8, 16, 64]);
    let n = rng.between(2, most);
    any_state(rng, n)
}

fn drawn_step(rng: &mut Xorshift, n: u64) -> HandStep {
    match rng.below(4) {
        0 => HandStep::Sweep,
        1 => HandStep::Chain,
        _ => HandStep::Pass(rng.between(1, n as usize) as u64),
    }
}

/// A step that removes legs and gives none if there is one, as few drawn ones do; else any.
fn telling_step(rng: &mut Xorshift, state: &WorkState) -> HandStep {
    let tells = |step: &HandStep| {
        let made = step.make(&Fast, *state);
        made.removed > 0 && made.state.end == End::None
    };
    let told = HandStep::all(state.n).find(tells);
    told.unwrap_or_else(|| drawn_step(rng, state.n))
}

fn each_step(n: u64) -> [HandStep; 4] {
    let [first, stray] = [1, n + 1].map(HandStep::Pass);
    [HandStep::Sweep, HandStep::Chain, first, stray]
}

#[test]
fn too_few_words_of_either_are_refused_and_nothing_is_written() {
    let words = super::nine_legs();
    let few_states =
        (0..STATE_WORDS).flat_map(|state| [0, 1, 63, 64, 70].map(|legs| (state, legs)));
    let few_legs = (0..LEGS_WORDS).flat_map(|legs| [0, 68, 69, 80].map(|state| (state, legs)));
    for (state, legs) in few_states.chain(few_legs) {
        let mut before = Lent::of(&words);
        before.state.resize(state, 7);
        before.legs.resize(legs, 8);
        for step in each_step(6) {
            let mut after = before.clone();
            assert_eq!(after.preview(step), NO_STATE);
            assert_eq!(after, before);
        }
    }
    let mut after = Lent::of(&words);
    assert_eq!(after.preview(HandStep::Sweep), card::TAKEN.into());
    assert_eq!((&after.legs[..3], after.end), (&[6, 1, 0][..], 0));
}

/// The word of the end is handed back as it stands, also where it says no end.
#[test]
fn a_mark_or_end_that_is_none_is_a_bad_state() {
    let wide = [1 << 32, (1 << 32) + 1, 1 << 63, u64::MAX];
    let marks = [2, 3, 256].into_iter().chain(wide).map(|mark| (MARK, mark));
    let ends = [3, 4, 256].into_iter().chain(wide).map(|end| (END, end));
    let ring = to_words(&WorkState::opened(&ring(6), 64));
    for (at, word) in marks.chain(ends) {
        for good in [super::nine_legs(), ring] {
            let mut lent = Lent::of(&good);
            lent.state[at] = word;
            for step in each_step(6) {
                lent.assert_shows_nothing(step, card::BAD_WORK_STATE);
            }
            // Both at once.
            lent.state[END] = 77;
            lent.state[MARK] = 78;
            for step in each_step(6) {
                lent.assert_shows_nothing(step, card::BAD_WORK_STATE);
            }
        }
    }
}

/// One word that no good state of n stations has.
fn spoil(rng: &mut Xorshift, n: usize, words: &mut [u64]) {
    let wide = rng.pick(&[1 << 32, 1 << 63, u64::MAX]);
    match rng.below(6) {
        0 => words[N] = rng.pick(&[0, 1, 65, wide]),
        1 => words[LIMIT] = rng.pick(&[0, 65, wide]),
        2 => words[PLACE] = rng.pick(&[n as u64 + 2, wide]),
        3 => words[MARK] = rng.pick(&[2, wide]),
        4 => words[END] = rng.pick(&[3, wide]),
        _ => {
            let own = rng.below(n);
            words[own] |= 1 << own;
        }
    }
}

#[test]
fn a_refused_preview_writes_empty_rows_and_the_given_end() {
    let mut rng = Xorshift::new(42);
    let (mut bad, mut stray) = (0, 0);
    for _ in 0..6_000 {
        let state = drawn_state(&mut rng);
        let mut lent = Lent::with_more(&mut rng, &to_words(&state));
        for seed in stray_seeds(state.n) {
            lent.assert_shows_nothing(HandStep::Pass(seed), card::STRAY_SEED);
            stray += 1;
        }
        spoil(&mut rng, state.n as usize, &mut lent.state);
        let seed = rng.pick(&stray_seeds(state.n));
        for step in [drawn_step(&mut rng, state.n), HandStep::Pass(seed)] {
            lent.assert_shows_nothing(step, card::BAD_WORK_STATE);
            bad += 1;
        }
    }
    assert!(bad > 10_000 && stray > 20_000);
}

/// The preview, the preview again and the step on the same words, four times over, beside those
/// of the fast calls. Words behind keep their contents.
#[test]
fn previews_show_what_steps_on_the_same_words_do() {
    let mut rng = Xorshift::new(43);
    let (mut struck, mut none, mut both, mut idle) = (0, 0, 0, 0);
    for _ in 0..8_000 {
        let mut state = drawn_state(&mut rng);
        let mut lent = Lent::with_more(&mut rng, &to_words(&state));
        for _ in 0..4 {
            let step = telling_step(&mut rng, &state);
            let due = Fast.preview(state, step);
            let expected = lent.showing(&due.legs, word_of_end(due.end));
            for _ in 0..2 {
                assert_eq!(lent.preview(step), due.number.into());
                assert_eq!(lent, expected, "{step} on {state}");
                lent.legs[..LEGS_WORDS].fill(rng.word());
                lent.end = UNWRITTEN;
            }
            let (before, mut removed) = (lent.state.clone(), u32::MAX);
            let made = raw::by_hand(&mut lent.state, step, &mut removed);
            assert_eq!(made, due.number.into());
            let shown: u32 = due.legs.iter().map(|row| row.count_ones()).sum();
            assert_eq!(removed, shown);
            let gone = (0..LEGS_WORDS).map(|at| before[at] & !lent.state[at]);
            assert!(gone.eq(due.legs));
            assert_eq!(lent.state[END], word_of_end(due.end));

            let gives_none = state.end != End::None && due.end == End::None;
            struck += u32::from(shown > 0);
            none += u32::from(gives_none);
            both += u32::from(gives_none && shown > 0);
            idle += u32::from(lent.state == before);
            state = step.make(&Fast, state).state;
        }
    }
    assert!(
        struck > 1_000 && none > 1_000 && idle > 5_000,
        "{struck} {none} {idle}"
    );
    assert!(both > 100, "{both}");
}

/// After a stable end that an opened sheet led to, with every seed.
#[test]
fn nothing_is_shown_on_stable_words() {
    let mut rng = Xorshift::new(44);
    let mut stable = 0;
    for _ in 0..1_500 {
        let n = rng.between(2, 16);
        let sheet = written_sheet(&any_table(&mut rng, n));
        let mut words = [0; STATE_WORDS];
        let (mut place, mut steps, mut removed) = (0, 0, 0);
        raw::open(&sheet, rng.pick(&[1, 2, 64]), &mut words, &mut place);
        raw::run(&mut words, u32::MAX, &mut steps, &mut removed);
        if words[END] != word_of_end(End::Stable) {
            continue;
        }
        stable += 1;
        let stray = stray_seeds(n as u64).map(HandStep::Pass);
        for step in HandStep::all(n as u64).chain(stray) {
            let number = number_due(&handed_back(&words), step);
            Lent::of(&words).assert_shows_nothing(step, number);
        }
    }
    assert!(stable > 400, "{stable}");
}

#[test]
fn the_header_tells_the_words_of_a_table() {
    assert!(super::header_has("ROWS", LEGS_WORDS));
}
