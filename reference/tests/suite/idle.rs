//! Passes told to change nothing: never wrongly, and nearly all of them.

use reference::gen::{all_tables, any_table, one_way_valleys, wide_islands, Xorshift, SHAPES};
use reference::{card, fast, Calls, End, Fast, LegTable, Plain, WorkState};

/// Passes that change nothing, and how many of them were told.
#[derive(Clone, Copy, Default)]
struct Count {
    idle: u64,
    told: u64,
}

impl Count {
    /// Looks at the pass from one seed. The calls given work it through.
    fn pass(&mut self, calls: &dyn Calls, state: &WorkState, seed: u64) {
        let passed = calls.pass(*state, seed);
        assert_eq!(passed.number, card::TAKEN);
        let idle = passed.state == *state;
        let told = fast::tells_idle(state, seed);
        assert!(idle || !told, "seed {seed} on {state}");
        self.idle += u64::from(idle);
        self.told += u64::from(told);
    }

    fn all_seeds(&mut self, calls: &dyn Calls, state: &WorkState) {
        for seed in 1..=state.n {
            self.pass(calls, state, seed);
        }
    }

    /// Looks at each pass of a whole run.
    fn run(&mut self, mut state: WorkState) {
        while state.end == End::Open {
            if state.place > 1 {
                self.pass(&Fast, &state, state.place - 1);
            }
            state = Fast.run(state, 1).state;
        }
    }

    fn percent(self) -> u64 {
        100 * self.told / self.idle
    }
}

/// With every seed and every limit that makes a difference, by the plain pass.
#[test]
fn all_tables_of_two_to_four_stations() {
    let mut count = Count::default();
    for table in (2..=4).flat_map(all_tables) {
        for limit in 1..=table.n() as u64 {
            count.all_seeds(&Plain, &WorkState::opened(&table, limit));
        }
    }
    assert_eq!((count.idle, count.told), (35_580, 31_404));
}

/// Most passes of these runs change nothing, and nearly all of those are told.
#[test]
fn passes_of_runs_on_all_shapes() {
    for shape in SHAPES {
        for n in [8, 16, 32, 64] {
            let mut rng = Xorshift::new(71);
            let mut count = Count::default();
            for _ in 0..12 {
                count.run(WorkState::opened(&shape.table(&mut rng, n), 64));
            }
            let percent = count.percent();
            assert!(percent >= 95, "{percent} %: {}, {n} stations", shape.name);
        }
    }
}

/// Every seed on tables of all kinds, most of them without a round, with low limits
/// among others.
#[test]
fn made_up_tables() {
    let mut rng = Xorshift::new(72);
    let mut count = Count::default();
    for index in 0..20_000 {
        let n = rng.between(2, 64);
        let table: LegTable = match index % 20 {
            0 => one_way_valleys(&mut rng, n.max(4)).0,
            1 => wide_islands(&mut rng, n),
            2..=4 => {
                let n = 1 << rng.between(3, 6);
                SHAPES[rng.below(SHAPES.len())].table(&mut rng, n)
            }
            _ => any_table(&mut rng, n),
        };
        let limit = rng.pick(&[1, 2, 3, 5, 8, 64]);
        count.all_seeds(&Fast, &WorkState::opened(&table, limit));
    }
    assert!(count.idle > 400_000 && count.percent() >= 80);
}
