//! What the C interface promises beyond the calls themselves: states of too few
//! or too many words, marks and ends that are none, and the whole program in one call;
//! runs in turns on the same lent words, calls on stable ones, cut steps, previews, and
//! searches with the stack they take. Then the components alone, as they are measured.

mod cuts;
mod finder;
mod previews;
mod stable;
#[cfg(target_arch = "x86_64")]
mod stack;
mod turns;

use std::collections::BTreeSet;

use super::{measured, raw, NO_STATE};
use crate::calls::Fast;
use crate::card;
use crate::filled::fill;
use crate::gen::{any_table, ring, wide_islands, Family, Sheet, Xorshift};
use crate::paper::{NINE_LEGS, NINE_LEGS_OUTPUT};
use crate::program::{self, BUDGET, PRINT_MOST};
use crate::state::{End, Rows, WorkState};
use crate::table::{stations_of, word_of, LegTable};
use crate::words::{to_words, Words, END, MARK, STATE_WORDS};
use crate::written::{written_sheet, WRITTEN_MOST};
use crate::{fast, graph};

/// What a call may write, filled with values that no call gives.
#[derive(Clone, Debug, PartialEq, Eq)]
struct Written {
    state: Vec<u64>,
    place: usize,
    removed: u32,
    steps: u32,
    yes: u8,
    buffer: [u8; 40],
    length: usize,
}

impl Written {
    fn before(state: Vec<u64>) -> Written {
        Written {
            state,
            place: 901,
            removed: 902,
            steps: 903,
            yes: 94,
            buffer: [b'.'; 40],
            length: 905,
        }
    }
}

type RawCall = fn(&mut Written) -> u32;

fn open(to: &mut Written) -> u32 {
    raw::open(&NINE_LEGS, 64, &mut to.state, &mut to.place)
}

fn sweep(to: &mut Written) -> u32 {
    raw::sweep(&mut to.state, &mut to.removed)
}

fn chain(to: &mut Written) -> u32 {
    raw::chain(&mut to.state, &mut to.removed)
}

fn pass(to: &mut Written) -> u32 {
    raw::pass(&mut to.state, 4, &mut to.removed)
}

fn run(to: &mut Written) -> u32 {
    raw::run(&mut to.state, 9, &mut to.steps, &mut to.removed)
}

fn check_list(to: &mut Written) -> u32 {
    raw::check_list(&to.state, &[2, 3, 4, 5, 6, 1], &mut to.yes)
}

fn report(to: &mut Written) -> u32 {
    raw::report(&to.state, &mut to.buffer, &mut to.length)
}

fn write(to: &mut Written) -> u32 {
    raw::write(&to.state, &mut to.buffer, &mut to.length)
}

const ON_A_STATE: [RawCall; 7] = [sweep, chain, pass, run, check_list, report, write];

fn nine_legs() -> Words {
    to_words(&crate::sheet::open(&NINE_LEGS, 64).state)
}

#[test]
fn too_few_words_are_refused_and_nothing_is_written() {
    for length in 0..STATE_WORDS {
        let before = Written::before(nine_legs()[..length].to_vec());
        for call in ON_A_STATE.into_iter().chain([open as RawCall]) {
            let mut after = before.clone();
            assert_eq!(call(&mut after), NO_STATE);
            assert_eq!(after, before);
        }
    }
}

#[test]
fn words_after_the_state_keep_their_contents() {
    let beyond: Vec<u64> = (1..=8).map(|k| u64::MAX / k).collect();
    for call in ON_A_STATE.into_iter().chain([open as RawCall]) {
        let mut exact = Written::before(nine_legs().to_vec());
        let mut longer = Written::before([&nine_legs()[..], &beyond].concat());
        assert_eq!(call(&mut exact), card::TAKEN.into());
        assert_eq!(call(&mut longer), card::TAKEN.into());
        assert_eq!(longer.state[STATE_WORDS..], beyond);
        longer.state.truncate(STATE_WORDS);
        assert_eq!(longer, exact);
    }
}

#[test]
fn a_refused_opening_writes_the_blank_state() {
    let mut to = Written::before(vec![u64::MAX; STATE_WORDS + 1]);
    let number = raw::open(&[0x03, 0x0C], 64, &mut to.state, &mut to.place);
    assert_eq!((number, to.place), (card::UNKNOWN_BIT.into(), 1));
    assert_eq!(to.state[..STATE_WORDS], to_words(&WorkState::BLANK));
    assert_eq!(to.state[STATE_WORDS], u64::MAX);
}

/// What each call writes when it refuses a state.
fn refused(before: &Written) -> [Written; 7] {
    let removed = 0;
    let by_hand = Written {
        removed,
        ..before.clone()
    };
    let ran = Written {
        steps: 0,
        ..by_hand.clone()
    };
    let checked = Written {
        yes: 0,
        ..before.clone()
    };
    let filled = Written {
        length: 0,
        ..before.clone()
    };
    let [sweep, chain, pass] = [(); 3].map(|_| by_hand.clone());
    let [reported, written] = [(); 2].map(|_| filled.clone());
    [sweep, chain, pass, ran, checked, reported, written]
}

#[test]
fn a_mark_or_end_that_is_none_is_a_bad_state() {
    let ring = to_words(&WorkState::opened(&ring(6), 64));
    let wide = [1 << 32, (1 << 32) + 1, 1 << 63, u64::MAX];
    let marks = [2, 3, 256].into_iter().chain(wide).map(|mark| (MARK, mark));
    let ends = [3, 4, 256].into_iter().chain(wide).map(|end| (END, end));
    for (at, word) in marks.chain(ends) {
        for good in [nine_legs(), ring] {
            let mut before = Written::before(good.to_vec());
            before.state[at] = word;
            for (call, expected) in ON_A_STATE.into_iter().zip(refused(&before)) {
                let mut after = before.clone();
                assert_eq!(call(&mut after), card::BAD_WORK_STATE.into());
                assert_eq!(after, expected);
            }
        }
    }
}

const HEADER: &str = include_str!("../../../include/loungeegret.h");

/// Does a line of the header give this value?
fn header_has(constant: &str, value: usize) -> bool {
    let start = format!("LOUNGEEGRET_{constant} = {value}");
    let mut rests = HEADER
        .lines()
        .filter_map(|line| line.trim().strip_prefix(&start));
    rests.any(|rest| !rest.starts_with(|more: char| more.is_ascii_digit()))
}

#[test]
fn the_header_tells_the_room_for_every_text_and_sheet() {
    assert!(header_has("PRINT_MOST", PRINT_MOST));
    assert!(header_has("WRITTEN_MOST", WRITTEN_MOST));
}

#[test]
fn the_header_tells_the_budget_that_always_suffices() {
    assert!(header_has("FULL_BUDGET", BUDGET as usize));
}

/// What is written into a buffer of any length, of a state of any end.
fn assert_writes(state: &WorkState, sheet: &[u8]) {
    for end in [End::Open, End::Stable, End::None] {
        let words = to_words(&WorkState { end, ..*state });
        for room in 0..=WRITTEN_MOST + 40 {
            let (mut buffer, mut length) = (vec![b'~'; room], usize::MAX);
            let mut expected = buffer.clone();
            let filled = fill(sheet, &mut expected);
            let answer = raw::write(&words, &mut buffer, &mut length);
            assert_eq!(
                (answer, length as u64),
                (filled.number.into(), filled.length)
            );
            assert_eq!(buffer, expected);
        }
    }
}

#[test]
fn the_sheet_is_written_where_it_has_room() {
    assert_writes(&crate::sheet::open(&NINE_LEGS, 64).state, &NINE_LEGS);
    let mut rng = Xorshift::new(34);
    let drawn = [2, 3, 12, 64].map(|n| any_table(&mut rng, n));
    let borders = [2, 64].map(|n| [LegTable::full(n), LegTable::empty(n)]);
    for table in drawn.iter().chain(borders.as_flattened()) {
        assert_writes(&WorkState::opened(table, 64), &written_sheet(table));
    }
}

/// Prints into so many bytes, none of which stands in a text.
fn print(sheet: &[u8], room: usize) -> (u32, usize, Vec<u8>) {
    let (mut buffer, mut length) = (vec![b'~'; room], usize::MAX);
    let answer = raw::print(sheet, &mut buffer, &mut length);
    (answer, length, buffer)
}

/// What is printed into a buffer of any length.
fn assert_prints(sheet: &[u8], text: &str) {
    let length = text.len();
    for room in [length, length + 1, PRINT_MOST] {
        let buffer = text.to_string() + &"~".repeat(room - length);
        let printed = (card::TAKEN.into(), length, buffer.into_bytes());
        assert_eq!(print(sheet, room), printed);
    }
    for room in [0, 1, length - 1] {
        let refused = (card::NO_ROOM.into(), 0, vec![b'~'; room]);
        assert_eq!(print(sheet, room), refused);
    }
}

#[test]
fn the_text_is_printed_where_it_has_room() {
    assert_prints(&NINE_LEGS, NINE_LEGS_OUTPUT);
    assert_prints(
        &[2, 4, 1, 0],
        "stations 2 legs 1\nsteps 1 removed 0 end none\n",
    );
    let full = Sheet::plain(64).bytes();
    assert_prints(&full, &program::output(&Fast, &full));
}

#[test]
fn a_refused_sheet_is_printed_too() {
    assert_prints(&[], "refused 1 at 0\n");
    assert_prints(&[3, 0x0C], "refused 3 at 1\n");
    let longer = [Sheet::longest().bytes(), vec![0]].concat();
    assert_prints(&longer, "refused 5 at 1153\n");
}

/// Finds the components of the stations of a word and says how many.
type Components = fn(&Rows, u64, &mut Rows) -> usize;

/// Each with what its words hold before: the library writes all of them, the
/// fast calls only those of components.
const TESTED: [(Components, u64); 2] = [(measured::components, u64::MAX), (fast::components, 0)];

/// The levels from every seed, some sets of three densities, no station and all
/// of them.
fn sets_to_leave_out(rng: &mut Xorshift, table: &LegTable, all: u64) -> BTreeSet<u64> {
    let levels = table.stations().flat_map(|seed| graph::levels(table, seed));
    let mut sets: BTreeSet<u64> = levels.map(|level| word_of(&level)).collect();
    sets.extend([0, all]);
    for _ in 0..4 {
        let (half, other) = (rng.word(), rng.word());
        sets.extend([half & other, half, half | other].map(|set| set & all));
    }
    sets
}

/// Comparisons by what is found: no component, one, several.
type Compared = [usize; 3];

/// Both beside the plain components, for each set to leave out.
fn compare_components(rng: &mut Xorshift, table: &LegTable, compared: &mut Compared) {
    let all = u64::MAX >> (64 - table.n());
    let neighbours = table.neighbour_words();
    for set in sets_to_leave_out(rng, table, all) {
        let plain = graph::components(table, &stations_of(set));
        let mut words = [0; 64];
        for (word, component) in words.iter_mut().zip(&plain) {
            *word = word_of(component);
        }
        for (components, before) in TESTED {
            let mut part = [before; 64];
            let count = components(&neighbours, all & !set, &mut part);
            assert_eq!((count, part), (plain.len(), words));
        }
        compared[plain.len().min(2)] += 1;
    }
}

fn drawn_table(rng: &mut Xorshift, n: usize) -> LegTable {
    match rng.below(5) {
        0 => wide_islands(rng, n),
        _ => any_table(rng, n),
    }
}

#[test]
fn components_below_64_stations_are_the_plain_ones() {
    let mut rng = Xorshift::new(31);
    let mut compared = [0; 3];
    for n in 2..64 {
        for _ in 0..1 + 64 / n {
            let table = drawn_table(&mut rng, n);
            compare_components(&mut rng, &table, &mut compared);
        }
    }
    for n in 2..32 {
        compare_components(&mut rng, &ring(n), &mut compared);
    }
    let [none, one, several] = compared;
    assert!(none > 250 && one > 6_000 && several > 20_000);
}

#[test]
fn components_of_64_stations_are_the_plain_ones() {
    let mut rng = Xorshift::new(32);
    let mut compared = [0; 3];
    compare_components(&mut rng, &ring(64), &mut compared);
    for family in Family::FOR_PASSES.into_iter().chain(Family::FOR_CHAINS) {
        let table = family.table(&mut rng, 64);
        compare_components(&mut rng, &table, &mut compared);
    }
    let [none, one, several] = compared;
    assert!(none > 10 && one > 1_000 && several > 5_000);
}

/// Of such words nothing else is said, so nothing is compared.
#[test]
fn the_measured_call_ends_on_words_that_are_not_mutual() {
    let mut rng = Xorshift::new(33);
    for _ in 0..10_000 {
        // Each word more halves the neighbours.
        let words = rng.between(1, 6);
        let nbr = [(); 64].map(|_| (0..words).fold(u64::MAX, |word, _| word & rng.word()));
        measured::components(&nbr, rng.word(), &mut [0; 64]);
    }
}
