//! Cut steps on lent words: a state and a must-drive table.

use crate::calls::{Calls, Fast};
use crate::card::{self, Number};
use crate::gen::must::{common, some_roads, stray, two_of_three, NO_ROADS};
use crate::gen::{any_state, any_two_way, two_way, Xorshift};
use crate::library::{raw, NO_STATE};
use crate::state::{End, Rows, WorkState};
use crate::words::{to_words, END, LIMIT, MARK, N, PLACE, STATE_WORDS};

const MUST_WORDS: usize = 64;

/// What is lent to a cut step, and what it leaves.
#[derive(Clone, Debug, PartialEq, Eq)]
struct Lent {
    state: Vec<u64>,
    must: Vec<u64>,
    removed: u32,
}

impl Lent {
    /// The words alone, and a count that no step gives.
    fn of(state: &WorkState, must: &Rows) -> Lent {
        Lent {
            state: to_words(state).to_vec(),
            must: must.to_vec(),
            removed: u32::MAX,
        }
    }

    /// The same with up to 40 more words behind each.
    fn with_more(rng: &mut Xorshift, state: &WorkState, must: &Rows) -> Lent {
        let mut lent = Lent::of(state, must);
        for words in [&mut lent.state, &mut lent.must] {
            let behind = rng.pick(&[0, 0, 1, 40]);
            words.extend((0..behind).map(|_| rng.word()));
        }
        lent
    }

    /// The answer of a step on the words, which is made on them.
    fn cut(&mut self) -> u32 {
        raw::cut(&mut self.state, &mut self.must, &mut self.removed)
    }

    /// A step on the words is refused and writes the count alone.
    fn assert_refused(&self, number: Number) {
        let mut after = self.clone();
        assert_eq!(after.cut(), number.into());
        let expected = Lent {
            removed: 0,
            ..self.clone()
        };
        assert_eq!(after, expected);
    }
}

/// A ring of four stations with a road across, opened: a step adds four roads.
fn ring_and_road() -> WorkState {
    let roads = [(1, 2), (2, 3), (3, 4), (1, 4), (1, 3)];
    WorkState::opened(&two_way(4, &roads), 64)
}

#[test]
fn too_few_words_of_either_are_refused_and_nothing_is_written() {
    let whole = Lent::of(&ring_and_road(), &NO_ROADS);
    let few_states = (0..STATE_WORDS).flat_map(|length| [0, 1, 63, 64].map(|must| (length, must)));
    let few_roads = (0..MUST_WORDS).flat_map(|must| [0, 68, 69].map(|length| (length, must)));
    for (length, must) in few_states.chain(few_roads) {
        let mut before = whole.clone();
        before.state.truncate(length);
        before.must.truncate(must);
        let mut after = before.clone();
        assert_eq!(after.cut(), NO_STATE);
        assert_eq!(after, before);
    }
    let mut after = whole.clone();
    assert_eq!((after.cut(), after.removed), (card::TAKEN.into(), 0));
    assert_ne!(after.must, whole.must);
}

#[test]
fn a_mark_or_end_that_is_none_is_a_bad_state() {
    let wide = [1 << 32, (1 << 32) + 1, 1 << 63, u64::MAX];
    let marks = [2, 3, 256].into_iter().chain(wide).map(|mark| (MARK, mark));
    let ends = [3, 4, 256].into_iter().chain(wide).map(|end| (END, end));
    let mut stray = NO_ROADS;
    stray[63] = 1;
    for (at, word) in marks.chain(ends) {
        for must in [NO_ROADS, stray] {
            let mut lent = Lent::of(&ring_and_road(), &must);
            lent.state[at] = word;
            lent.assert_refused(card::BAD_WORK_STATE);
        }
    }
}

/// A two-way table at any place, with any mark and end.
fn two_way_state(rng: &mut Xorshift) -> WorkState {
    let most = rng.pick(&[8, 8, 16, 64]);
    let n = rng.between(3, most);
    let (table, _) = any_two_way(rng, n);
    WorkState {
        place: rng.below(n + 2) as u64,
        mark: rng.percent(50),
        end: rng.pick(&[End::Open, End::Open, End::Stable, End::None]),
        ..WorkState::opened(&table, rng.pick(&[1, 2, 64]))
    }
}

fn drawn_roads(rng: &mut Xorshift, state: &WorkState) -> Rows {
    let chance = rng.pick(&[0, 10, 30, 100]);
    match rng.below(3) {
        0 => two_of_three(rng, &state.rows),
        _ => some_roads(rng, &state.rows, chance),
    }
}

/// One word that no good state of n stations has.
fn spoil(rng: &mut Xorshift, n: usize, words: &mut [u64]) {
    let wide = rng.pick(&[1 << 32, 1 << 63, u64::MAX]);
    match rng.below(6) {
        0 => words[N] = rng.pick(&[0, 1, 65, wide]),
        1 => words[LIMIT] = rng.pick(&[0, 65, wide]),
        2 => words[PLACE] = rng.pick(&[n as u64 + 2, wide]),
        3 => words[MARK] = rng.pick(&[2, wide]),
        4 => words[END] = rng.pick(&[3, wide]),
        _ => {
            let own = rng.below(n);
            words[own] |= 1 << own;
        }
    }
}

#[test]
fn a_refused_step_writes_the_count_alone() {
    let mut rng = Xorshift::new(39);
    let mut refused = [0; 3];
    for _ in 0..12_000 {
        let n = rng.between(2, 12);
        let state = match rng.below(3) {
            0 => any_state(&mut rng, n),
            _ => two_way_state(&mut rng),
        };
        let must = drawn_roads(&mut rng, &state);
        let must = stray(&mut rng, &state, &must);
        let mut lent = Lent::with_more(&mut rng, &state, &must);
        let mut number = Fast.cut(state, &must).number;
        if rng.percent(30) {
            spoil(&mut rng, state.n as usize, &mut lent.state);
            number = card::BAD_WORK_STATE;
        }
        if number != card::TAKEN {
            lent.assert_refused(number);
            refused[usize::from(number).saturating_sub(10)] += 1;
        }
    }
    assert!(refused.iter().all(|&count| count > 1_000), "{refused:?}");
}

/// One step after the other on the same words, beside those of the fast calls, until
/// nothing changes. Words behind keep their contents.
#[test]
fn steps_on_the_same_words_leave_what_the_fast_ones_hand_back() {
    let mut rng = Xorshift::new(40);
    let (mut removals, mut none, mut grown) = (0, 0, 0);
    for _ in 0..12_000 {
        let mut state = two_way_state(&mut rng);
        let mut must = drawn_roads(&mut rng, &state);
        let mut lent = Lent::with_more(&mut rng, &state, &must);
        let behind = [
            lent.state[STATE_WORDS..].to_vec(),
            lent.must[MUST_WORDS..].to_vec(),
        ];
        loop {
            let before = (state, must);
            let due = Fast.cut(state, &must);
            assert_eq!(lent.cut(), due.number.into());
            assert_eq!(u64::from(lent.removed), due.removed);
            assert_eq!(lent.state, [&to_words(&due.state)[..], &behind[0]].concat());
            assert_eq!(lent.must, [&due.must[..], &behind[1]].concat());
            (state, must) = (due.state, due.must);
            removals += u32::from(due.removed > 0);
            grown += u32::from(must != before.1);
            none += u32::from(state.end != before.0.end && state.end == End::None);
            if (state, must) == before {
                break;
            }
        }
        assert_eq!(common(&must, &state.rows), must);
    }
    assert!(removals > 500 && none > 1_000 && grown > 2_000);
}
