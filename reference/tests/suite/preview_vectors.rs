//! The vectors of previews, by the bytes of their script and the text of its answers alone: a
//! preview shows what its step then does, changes nothing, is the same a second time, and no
//! round drives a previewed leg.

mod shown;

use std::collections::HashMap;

use reference::rounds::rounds;
use reference::state::Rows;
use reference::{bad, End};

use self::shown::{all_made, all_shown, rows, Key, Made, Played, Shown};

const NO_LEGS: Rows = [0; 64];

fn without(one: &Rows, other: &Rows) -> Rows {
    std::array::from_fn(|at| one[at] & !other[at])
}

/// The number of the first check that fails.
fn number(shown: &Shown) -> u32 {
    let stray = |seed: u64| !(1..=shown.before.n).contains(&seed);
    if bad(&shown.before) {
        7
    } else if shown.seed().is_some_and(stray) {
        8
    } else {
        0
    }
}

/// The end of a step whose verdict is not none.
fn end_without_none(shown: &Shown) -> End {
    match shown.legs {
        NO_LEGS => shown.before.end,
        _ => End::Open,
    }
}

/// No round drives a previewed leg, and there is none at all where none would be given.
fn keeps_rounds(shown: &Shown) -> bool {
    if !shown.works() || shown.nothing() || shown.before.n > 8 {
        return true;
    }
    let rounds = rounds(&shown.before.table());
    let driven = |round: &Vec<usize>| {
        let mut legs = round.iter().zip(&shown.legs);
        legs.any(|(next, row)| row >> (next - 1) & 1 == 1)
    };
    match rounds[..] {
        [] => true,
        _ => !shown.none() && !rounds.iter().any(driven),
    }
}

/// Does the step remove the previewed legs and come to the end that was shown?
fn fits_step(shown: &Shown, made: &Made) -> bool {
    let gone = without(&shown.before.rows, &made.after.rows);
    let same = (made.number, gone, made.after.end) == (shown.number, shown.legs, shown.end);
    same && made.removed == shown.count
}

/// What a preview answers otherwise than its state and the step on it allow.
fn fault(shown: &Shown, steps: &HashMap<Key, Made>) -> Option<&'static str> {
    let made = steps.get(&shown.key());
    let ones: u32 = shown.legs.iter().map(|row| row.count_ones()).sum();
    let ended = shown.before.end == End::None;
    let checks = [
        ("number", shown.number == number(shown)),
        ("state", shown.state == shown.before),
        ("count", shown.count == u64::from(ones)),
        ("refused", shown.taken() || shown.nothing()),
        ("ended", !ended || shown.nothing()),
        (
            "standing",
            without(&shown.legs, &shown.before.rows) == NO_LEGS,
        ),
        (
            "end",
            shown.end == End::None || shown.end == end_without_none(shown),
        ),
        ("rounds", keeps_rounds(shown)),
        ("step", made.is_none_or(|made| fits_step(shown, made))),
    ];
    let fault = checks.iter().find(|(_, holds)| !holds);
    fault.map(|&(name, _)| name)
}

#[test]
fn previews_fit_their_states_and_steps() {
    let rows = rows();
    let steps = all_made(&rows);
    for shown in all_shown(&rows) {
        assert_eq!(fault(&shown, &steps), None, "{shown:?}");
    }
}

/// Of a pass that shows legs and leaves others.
#[test]
fn a_change_of_any_part_is_found() {
    let rows = rows();
    let (all, steps) = (all_shown(&rows), all_made(&rows));
    let fits = |shown: &&Shown| {
        let some = shown.count > 1 && !shown.none() && shown.before.n <= 8;
        some && shown.seed().is_some() && steps.contains_key(&shown.key())
    };
    let shown = all.iter().find(fits).expect("a preview");
    let first = shown.legs.iter().position(|row| *row != 0).expect("a leg");
    type Change<'a> = &'a dyn Fn(&mut Shown);
    let changes: [(&str, Change); 11] = [
        ("number", &|shown| shown.number = 8),
        ("number", &|shown| shown.before.limit = 0),
        ("number", &|shown| {
            shown.command = [&b"P"[..], &[0; 8]].concat()
        }),
        ("state", &|shown| shown.state.place += 1),
        ("state", &|shown| {
            shown.state.rows = without(&shown.before.rows, &shown.legs)
        }),
        ("count", &|shown| shown.count += 1),
        ("ended", &|shown| {
            shown.before.end = End::None;
            shown.state.end = End::None;
        }),
        ("standing", &|shown| {
            shown.legs[first] |= 1 << 63;
            shown.count += 1;
        }),
        ("end", &|shown| shown.end = End::Stable),
        ("rounds", &|shown| {
            shown.legs = shown.before.rows;
            shown.count = shown.before.legs();
        }),
        ("step", &|shown| {
            shown.count -= u64::from(shown.legs[first].count_ones());
            shown.legs[first] = 0;
        }),
    ];
    for (part, change) in changes {
        let mut changed = shown.clone();
        change(&mut changed);
        assert_eq!(fault(&changed, &steps), Some(part), "{changed:?}");
    }
    let refused = all.iter().find(|shown| shown.number == 8);
    let mut changed = refused.expect("a refusal").clone();
    (changed.legs[0], changed.count) = (2, 1);
    assert_eq!(fault(&changed, &steps), Some("refused"));
}

/// A preview, the step, and the preview on what is left; the preview before is often made a
/// second time from the same state.
#[test]
fn previews_stand_before_and_after_their_steps() {
    let rows = rows();
    let (mut around, mut changed, mut refused) = (0, 0, 0);
    for three in rows.iter().flat_map(|row| row.windows(3)) {
        let [Played::Shown(first), Played::Made(key, made), Played::Shown(second)] = three else {
            continue;
        };
        if first.key() == *key && second.command == first.command {
            assert_eq!(second.before, made.after);
            around += 1;
            changed += u32::from(!first.nothing());
            refused += u32::from(!first.taken());
        }
    }
    assert!(
        around > 150 && changed > 80 && refused > 5,
        "{around} {changed} {refused}"
    );

    let mut firsts: HashMap<Key, Shown> = HashMap::new();
    let mut again = 0;
    for shown in all_shown(&rows) {
        let first = firsts.entry(shown.key()).or_insert_with(|| shown.clone());
        assert_eq!(*first, shown);
        again += u32::from(*first == shown);
    }
    let twice = again - firsts.len() as u32;
    assert!(twice > 50, "{twice}");
}

/// After a run from an opened sheet that ends stable, up to the next call.
#[test]
fn nothing_is_shown_on_stable_states() {
    let (mut stable, mut stray) = (0, 0);
    for row in rows() {
        let ends_stable = |played: &Played| matches!(played, Played::Ran(End::Stable));
        let Some(at) = row.iter().position(ends_stable) else {
            continue;
        };
        for played in &row[at..] {
            if let Played::Shown(shown) = played {
                assert!(shown.nothing() && shown.end == End::Stable);
                stable += 1;
                stray += u32::from(shown.number == 8);
            }
        }
    }
    assert!(stable > 60 && stray > 15, "{stable} {stray}");
}

#[test]
fn every_kind_of_preview_is_among_the_vectors() {
    let all = all_shown(&rows());
    let count = |kind: &dyn Fn(&Shown) -> bool| all.iter().filter(|shown| kind(shown)).count();
    assert!(all.len() > 700);
    for n in (4..=11).chain([2, 16, 20, 24, 32, 64]) {
        assert!(count(&|shown| shown.works() && shown.before.n == n && !shown.nothing()) > 0);
    }
    for opcode in *b"SCP" {
        let of = |shown: &Shown| shown.command[0] == opcode;
        assert!(count(&|shown| of(shown) && shown.count > 0 && !shown.none()) > 20);
        assert!(count(&|shown| of(shown) && shown.none() && shown.count == 0) > 10);
        assert!(count(&|shown| of(shown) && shown.works() && shown.nothing()) > 20);
        assert!(count(&|shown| of(shown) && shown.number == 7) > 20);
    }
    for end in [End::Open, End::Stable, End::None] {
        let given = |shown: &Shown| shown.before.end == end;
        let amid = |shown: &Shown| given(shown) && shown.before.mark && shown.before.place > 0;
        for number in [0, 8] {
            assert!(count(&|shown| amid(shown) && shown.number == number) > 0);
        }
        assert!(count(&|shown| given(shown) && shown.number == 7) > 1);
        if end != End::None {
            assert!(count(&|shown| amid(shown) && shown.count > 0 && !shown.none()) > 2);
            assert!(count(&|shown| amid(shown) && shown.none()) > 2);
        }
    }
    // The state is checked first.
    let stray = |shown: &Shown| shown.seed() == Some(0);
    assert!(count(&|shown| stray(shown) && shown.number == 7) > 10);
    assert!(count(&|shown| shown.number == 8) > 40);
    assert!(count(&|shown| shown.taken() && shown.before.end == End::None) > 40);
    // Levels that removed legs come before the one that gives none.
    let none_with_legs = |shown: &Shown| shown.none() && shown.count > 0;
    assert!(count(&none_with_legs) > 12);
    assert!(count(&|shown| none_with_legs(shown) && shown.before.end == End::Stable) > 3);
    for n in [5, 6, 7, 8, 9, 10, 16, 24, 32, 64] {
        assert!(count(&|shown| none_with_legs(shown) && shown.before.n == n) > 0);
    }
    for limit in [1, 2, 3] {
        assert!(count(&|shown| shown.works() && shown.before.limit == limit) > 5);
    }
}
