//! Compares the proved library with the plain and the fast calls.
//!
//! `compare [--seed S] [--sheets COUNT]` goes through that many made-up sheets,
//! `compare --seed S --sheet K` through a single one of them again. A difference
//! ends it with status 1, and so does, after many sheets, a count of neighbours, of
//! written sheets, of ceilings, of turns, of stable states, of searches, of cut steps or of
//! previews that is still 0, or too few tables of valleys.

use std::process::ExitCode;
use std::str::FromStr;
use std::sync::atomic::{AtomicU64, Ordering};
use std::thread;
use std::time::Instant;

use reference::compare::cuts::CutCounts;
use reference::compare::finder::SearchCounts;
use reference::compare::previews::PreviewCounts;
use reference::compare::{compare_sheet, Counts, Difference};
use reference::Library;

const USAGE: &str = "usage: compare [--seed S] [--sheets COUNT | --sheet K]";
const COMMAND: &str = "cargo run --release --offline --features library --bin compare --";
const THREADS: usize = 2;
/// So many sheets have calls of every kind.
const MANY_SHEETS: u64 = 1_000;

struct Options {
    seed: u64,
    sheets: u64,
    only: Option<u64>,
}

fn main() -> ExitCode {
    let Some(options) = options(std::env::args().skip(1)) else {
        eprintln!("{USAGE}");
        return ExitCode::from(2);
    };
    let start = Instant::now();
    let (first, end) = match options.only {
        Some(index) => (index, index.saturating_add(1)),
        None => (0, options.sheets),
    };
    match compare(options.seed, first, end) {
        Ok(counts) => {
            tell(options.seed, end - first, &counts);
            eprintln!("compare: {:.1} seconds", start.elapsed().as_secs_f64());
            let sheets = end - first;
            let missing = counts.missing(sheets);
            if let Some(missing) = missing.filter(|_| sheets >= MANY_SHEETS) {
                println!("compare: too few calls for {missing}");
                return ExitCode::FAILURE;
            }
            ExitCode::SUCCESS
        }
        Err(found) => {
            tell_difference(options.seed, &found);
            ExitCode::FAILURE
        }
    }
}

fn options(mut words: impl Iterator<Item = String>) -> Option<Options> {
    let mut options = Options {
        seed: 1,
        sheets: 20_480,
        only: None,
    };
    while let Some(word) = words.next() {
        let value = u64::from_str(&words.next()?).ok()?;
        match word.as_str() {
            "--seed" => options.seed = value,
            "--sheets" => options.sheets = value,
            "--sheet" => options.only = Some(value),
            _ => return None,
        }
    }
    Some(options)
}

/// A difference with the index of its sheet.
type Found = (u64, Box<Difference>);

/// Compares on the sheets from `first` up to `end`, several at a time.
fn compare(seed: u64, first: u64, end: u64) -> Result<Counts, Found> {
    let next = AtomicU64::new(first);
    let results = thread::scope(|scope| {
        let work = || compare_next(seed, &next, end);
        let threads: Vec<_> = (0..THREADS).map(|_| scope.spawn(work)).collect();
        let joined = threads.into_iter().map(|thread| thread.join());
        joined.collect::<Result<Vec<_>, _>>()
    });
    let mut sum = Counts::default();
    let mut found = Vec::new();
    for result in results.expect("no panic outside a comparison") {
        match result {
            Ok(counts) => sum.add(&counts),
            Err(one) => found.push(one),
        }
    }
    let lowest = found.into_iter().min_by_key(|(index, _)| *index);
    lowest.map_or(Ok(sum), Err)
}

/// Takes one sheet after the other until none is left or one differs.
fn compare_next(seed: u64, next: &AtomicU64, end: u64) -> Result<Counts, Found> {
    let mut sum = Counts::default();
    loop {
        let index = next.fetch_add(1, Ordering::Relaxed);
        if index >= end {
            return Ok(sum);
        }
        match compare_sheet(&Library, seed, index) {
            Ok(counts) => sum.add(&counts),
            Err(difference) => {
                // Nothing is left for the other threads.
                next.store(end, Ordering::Relaxed);
                return Err((index, difference));
            }
        }
    }
}

fn tell(seed: u64, sheets: u64, counts: &Counts) {
    let calls = counts.calls;
    println!("compare: seed {seed}, {sheets} sheets, {calls} calls, no difference");
    println!(
        "  {} calls answered by the plain calls too, {} sequences on a table with a known round",
        counts.plain, counts.watched
    );
    let numbers: Vec<String> = (0..)
        .zip(counts.numbers)
        .map(|(number, count): (u8, u64)| format!("{number}: {count}"))
        .collect();
    println!("  answers by number: {}", numbers.join(", "));
    println!(
        "  {} legs removed, {} runs to stable, {} to none, {} lists confirmed",
        counts.legs_removed, counts.ended_stable, counts.ended_none, counts.rounds_confirmed
    );
    let chains = &counts.chains;
    println!(
        "  chain steps by hand: {} struck legs, {} gave none, {} left the table, {} came after none",
        chains.struck, chains.none, chains.left, chains.ended
    );
    let islands = &counts.islands;
    println!(
        "  passes by hand with a station unreached: {} without inner level, {} with all over the limit, {} with one to look at",
        islands.no_level, islands.over_limit, islands.level
    );
    let neighbours = &counts.neighbours;
    println!(
        "  neighbours: {} passes by hand have others at a later level, {} differ by outgoing legs alone, {} runs differ by those of the first level",
        neighbours.changed, neighbours.by_outgoing, neighbours.by_first
    );
    let valleys = &counts.valleys;
    println!(
        "  valleys: {} tables with a pass by hand that differs by marks without a way inside, {} by legs struck and {} by none; {} whole runs differ too",
        valleys.tables(), valleys.struck, valleys.none, valleys.runs
    );
    let written = &counts.written;
    println!(
        "  written sheets: {} round trips; records: {} without field, {} fixed, {} with a next set, {} with an empty one",
        written.round_trips, written.no_field, written.fixed, written.next_set, written.empty_set
    );
    let ceilings = &counts.ceilings;
    let (from_start, from_mid_cycle) = (&ceilings.from_start, &ceilings.from_mid_cycle);
    println!(
        "  ceilings: {} runs with a budget of at least their ceiling, {} of them from mid-cycle, {} with just the ceiling, {} with that of the program; largest ratio {}, from mid-cycle {}",
        ceilings.runs(), from_mid_cycle.count, ceilings.just, ceilings.program, from_start.nearest, from_mid_cycle.nearest
    );
    let turns = &counts.turns;
    println!(
        "  turns: {} split budgets, {} cut in mid-cycle with the mark set, {} ended before the last turn, {} with a turn of 0, {} with the sum 4294967295, {} on bad states with 7 each time, {} from states that no opening gives",
        turns.splits, turns.marked, turns.ended_before, turns.with_zero, turns.largest, turns.refused, turns.of_no_opening
    );
    let stable = &counts.stable;
    println!(
        "  stable states: {} reached, {} of them after legs removed by hand; {} steps by hand left them as they were, {} stray seeds were refused, {} runs on them opened anew came back in one cycle, {} of them by their sheet; {} made-up ones changed",
        stable.states, stable.after_hand, stable.steps, stable.stray, stable.anew, stable.sheets, stable.made_up
    );
    tell_searches(&counts.searches);
    tell_cuts(&counts.cuts);
    tell_previews(&counts.previews);
}

fn tell_searches(searches: &SearchCounts) {
    println!(
        "  searches: {} found a round, {} of them after a node without one; {} found none, {} of them by several nodes; {} budgets were used up, {} searches ended with just theirs and {} with the largest, {} on more than 8 stations",
        searches.found, searches.found_late, searches.no_round, searches.no_round_late, searches.used_up, searches.just, searches.largest, searches.wide
    );
    println!(
        "  searches that found the same: {} with another place, mark or end, {} with another limit and count, {} after calls that removed legs; refused: {} bad states, {} wrong lengths",
        searches.moved, searches.limits, searches.after_calls, searches.bad_states, searches.wrong_lengths
    );
}

fn tell_cuts(cuts: &CutCounts) {
    println!(
        "  cut steps that gave none: {} by a cut of no road, {} of one road, {} of three must-drive roads, {} by a road that would do both; others: {} added must-drive roads, {} of them and left the state, {} removed roads, {} changed nothing, {} came after none; {} on more than 12 stations changed something",
        cuts.no_road, cuts.one_road, cuts.three_must, cuts.both, cuts.forced, cuts.only_must, cuts.dropped, cuts.left, cuts.ended, cuts.wide
    );
    println!(
        "  cut steps: {} with must-drive roads of a known round, {} rows of them to rest, {} times between turns that added up, {} times between turns after a change, {} stable states after them; refused: {} bad states, {} tables not two-way, {} stray roads",
        cuts.in_class, cuts.in_a_row, cuts.turns, cuts.turns_broken, cuts.stable, cuts.bad_states, cuts.not_two_way, cuts.stray
    );
}

fn tell_previews(previews: &PreviewCounts) {
    println!(
        "  previews that showed legs: {} of sweeps, {} of chain steps, {} of passes, {} with none; others: {} showed none alone, {} nothing, {} came after none; {} on more than 12 stations showed something",
        previews.sweeps, previews.chains, previews.passes, previews.none_with_legs, previews.none_alone, previews.nothing, previews.ended, previews.wide
    );
    println!(
        "  previews: {} came before their steps, {} were made a second time, {} left stable states as they were; refused: {} bad states, {} stray seeds",
        previews.steps, previews.again, previews.stable, previews.bad_states, previews.stray_seeds
    );
}

fn tell_difference(seed: u64, (index, difference): &Found) {
    println!("compare: seed {seed}, sheet {index} differs");
    print!("{difference}");
    println!("again: {COMMAND} --seed {seed} --sheet {index}");
}
