//! How near runs come to their ceiling (W-206), as Markdown: on made-up tables, on all
//! tables of few stations, and on tables that a search makes worse leg by leg.
//!
//! Seeds and counts are fixed, so that every machine prints the same.

use std::thread;
use std::time::Instant;

use reference::ceiling::Nearness;
use reference::gen::{any_table, one_way_valleys, wide_islands, Family, Xorshift, SHAPES};
use reference::state::{Rows, LARGEST_LIMIT};
use reference::{fast, End, LegTable, WorkState};

fn main() {
    let start = Instant::now();
    println!("# Whole runs beside their ceilings\n");
    println!("All start at place 0 with the mark clear.");
    println!("\n## Made-up tables\n");
    print_made_up();
    println!("\n## All tables of few stations\n");
    print_worst(&(2..=5).flat_map(small_tables).collect::<Vec<_>>());
    println!("\n## Tables made worse leg by leg\n");
    print_worst(&SEARCHES.into_iter().flat_map(searched).collect::<Vec<_>>());
    eprintln!("ceiling: {:.1} seconds", start.elapsed().as_secs_f64());
}

/// A whole run.
#[derive(Clone, Copy)]
struct Whole {
    opened: WorkState,
    near: Nearness,
    end: End,
}

impl Whole {
    fn from(opened: WorkState) -> Whole {
        let ran = fast::run(opened, u32::MAX);
        Whole {
            opened,
            near: Nearness::of(&opened, &ran),
            end: ran.state.end,
        }
    }

    fn of(n: usize, rows: Rows, limit: u64) -> Whole {
        Whole::from(WorkState {
            n: n as u64,
            rows,
            limit,
            ..WorkState::BLANK
        })
    }
}

/// By what a run is worse than another.
#[derive(Clone, Copy)]
enum Goal {
    Ratio,
    Steps,
}

impl Goal {
    fn word(self) -> &'static str {
        match self {
            Goal::Ratio => "ratio",
            Goal::Steps => "steps",
        }
    }

    fn score(self, whole: &Whole) -> (u32, Nearness) {
        match self {
            Goal::Ratio => (0, whole.near),
            Goal::Steps => (whole.near.steps, whole.near),
        }
    }

    fn worse(self, one: Whole, other: Whole) -> Whole {
        if self.score(&other) > self.score(&one) {
            other
        } else {
            one
        }
    }
}

/// What is sought, by limits: that of the program, and low ones, as runs that look at
/// fewer levels may come nearer.
const SOUGHT: [(u64, Goal); 4] = [
    (LARGEST_LIMIT, Goal::Ratio),
    (LARGEST_LIMIT, Goal::Steps),
    (2, Goal::Ratio),
    (1, Goal::Ratio),
];

/// The worst of many tables.
struct Worst {
    tables: u32,
    goal: Goal,
    whole: Whole,
}

fn print_worst(worst: &[Worst]) {
    println!("| stations | limit | tables | worst by | ratio | steps | ceiling | legs | end |");
    println!("|---|---|---|---|---|---|---|---|---|");
    for Worst {
        tables,
        goal,
        whole,
    } in worst
    {
        let WorkState { n, limit, .. } = whole.opened;
        let (by, ratio) = (goal.word(), whole.near.ratio());
        let Nearness { steps, ceiling } = whole.near;
        let (legs, end) = (whole.opened.legs(), whole.end.word());
        print!("| {n} | {limit} | {tables} | {by} | {ratio:.3} |");
        println!(" {steps} | {ceiling} | {legs} | {end} |");
    }
    println!();
    for Worst { goal, whole, .. } in worst {
        let (WorkState { n, limit, .. }, by) = (whole.opened, goal.word());
        let rows = rows_in_words(&whole.opened.table());
        println!("- {n}, limit {limit}, by {by}: `{rows}`");
    }
}

/// For each station the next ones.
fn rows_in_words(table: &LegTable) -> String {
    let row = |i: usize| {
        let next = table.successors(i).iter().map(usize::to_string);
        format!("{i}: {}", next.collect::<Vec<_>>().join(" "))
    };
    table.stations().map(row).collect::<Vec<_>>().join(", ")
}

/// Stations of made-up tables, and how many tables of each kind.
const SIZES: [(usize, usize); 4] = [(8, 4_000), (16, 2_000), (32, 500), (64, 100)];

/// Tables of one kind under its name.
type Kind = (String, Box<dyn Fn(&mut Xorshift, usize) -> LegTable>);

fn kinds() -> Vec<Kind> {
    let mut kinds: Vec<Kind> = Vec::new();
    for shape in SHAPES {
        let name = format!("benchmark: {}", shape.name);
        kinds.push((name, Box::new(move |rng, n| shape.table(rng, n))));
    }
    for family in Family::FOR_PASSES.into_iter().chain(Family::FOR_CHAINS) {
        let name = format!("{family:?}");
        kinds.push((name, Box::new(move |rng, n| family.table(rng, n))));
    }
    let valleys = |rng: &mut Xorshift, n: usize| one_way_valleys(rng, n).0;
    kinds.push(("one_way_valleys".to_string(), Box::new(valleys)));
    kinds.push(("wide_islands".to_string(), Box::new(wide_islands)));
    kinds
}

fn print_made_up() {
    println!("The largest ratio of steps to the ceiling, with limit {LARGEST_LIMIT}.\n");
    let heads = SIZES.map(|(n, tables)| format!("{n} stations, {tables} tables"));
    println!("| kind | {} |", heads.join(" | "));
    println!("|---{}|", "|---".repeat(SIZES.len()));
    for (name, table) in kinds() {
        let cells = SIZES.map(|(n, tables)| {
            let mut rng = Xorshift::new(n as u64);
            let mut made = || WorkState::opened(&table(&mut rng, n), LARGEST_LIMIT);
            let runs = (0..tables).map(|_| Whole::from(made()).near);
            runs.max().unwrap_or_default().to_string()
        });
        println!("| {name} | {} |", cells.join(" | "));
    }
}

/// The rows of a table by the bits of a number, one for each leg.
fn rows_of(n: usize, code: u32) -> Rows {
    let mut rows = [0; 64];
    let others = n - 1;
    for (at, row) in rows[..n].iter_mut().enumerate() {
        let word = u64::from(code) >> (at * others) & ((1 << others) - 1);
        let below = word & ((1 << at) - 1);
        *row = below | (word ^ below) << 1;
    }
    rows
}

/// Seeks by several goals at the same time.
fn seek(
    tables: u32,
    sought: &[(u64, Goal)],
    worst: impl Fn(u64, Goal) -> Whole + Sync,
) -> Vec<Worst> {
    let worst = &worst;
    thread::scope(|scope| {
        let spawn = |&(limit, goal)| (goal, scope.spawn(move || worst(limit, goal)));
        let seeking: Vec<_> = sought.iter().map(spawn).collect();
        let found = seeking.into_iter().map(|(goal, thread)| Worst {
            tables,
            goal,
            whole: thread.join().expect("a table"),
        });
        found.collect()
    })
}

fn small_tables(n: usize) -> Vec<Worst> {
    let tables = 1 << (n * (n - 1));
    seek(tables, &SOUGHT, |limit, goal| {
        let runs = (0..tables).map(|code| Whole::of(n, rows_of(n, code), limit));
        let worst = runs.reduce(|one, other| goal.worse(one, other));
        worst.expect("a table")
    })
}

/// Stations of searched tables, and how many tables each search tries.
const SEARCHES: [(usize, u32); 4] = [
    (6, 2_000_000),
    (8, 2_000_000),
    (12, 1_000_000),
    (16, 700_000),
];

/// So many tables in turn that are no worse than the one before end a way.
const PATIENCE: u32 = 4_000;

fn searched((n, tables): (usize, u32)) -> Vec<Worst> {
    seek(tables, &SOUGHT[..3], |limit, goal| {
        search(n, limit, goal, tables)
    })
}

/// Ways from several tables, each from table to table that is not less bad.
fn search(n: usize, limit: u64, goal: Goal, tables: u32) -> Whole {
    let mut rng = Xorshift::new(n as u64);
    let mut worst = Whole::of(n, [0; 64], limit);
    let mut left = tables;
    while left > 0 {
        let mut here = Whole::from(WorkState::opened(&any_table(&mut rng, n), limit));
        let mut idle = 0;
        while idle < PATIENCE && left > 0 {
            left -= 1;
            idle += 1;
            let next = Whole::of(n, flipped(&mut rng, n, here.opened.rows), limit);
            let (score, next_score) = (goal.score(&here), goal.score(&next));
            if next_score > score {
                idle = 0;
            }
            if next_score >= score {
                here = next;
            }
        }
        worst = goal.worse(worst, here);
    }
    worst
}

/// The rows with one leg more or less, sometimes with two or three.
fn flipped(rng: &mut Xorshift, n: usize, mut rows: Rows) -> Rows {
    for _ in 0..rng.pick(&[1, 1, 2, 3]) {
        let from = rng.below(n);
        let to = (from + rng.between(1, n - 1)) % n;
        rows[from] ^= 1 << to;
    }
    rows
}
