//! Cut steps that are refused, with faults alone and together: the state is checked first,
//! then the table, then the must-drive roads. Also where the end is none.

use super::{but_one_road, must_of, two_way_ring};
use crate::gen::must::NO_ROADS;
use crate::gen::ring;
use crate::program::LIMIT;
use crate::script::Script;
use crate::state::{last_place, End, Rows, WorkState};
use crate::table::{Leg, LegTable};

pub fn add(script: &mut Script) {
    for table in one_way_tables() {
        under_every_end(script, &table, &[NO_ROADS, with_leg(&[], (1, 64))]);
    }
    let stray = [
        with_leg(&[], (1, 1)),
        must_of(&[(1, 4)]),
        with_leg(&[], (1, 2)),
    ];
    under_every_end(script, &but_one_road(), &stray);
    stray_roads(script);
    most_stations(script);
    bad_states(script);
}

/// At rest, and in mid-cycle with the mark set.
fn under_every_end(script: &mut Script, table: &LegTable, musts: &[Rows]) {
    let opened = WorkState::opened(table, LIMIT);
    let marked = WorkState {
        place: 2,
        mark: true,
        ..opened
    };
    for state in [opened, marked] {
        for end in [End::Open, End::Stable, End::None] {
            script.work(&WorkState { end, ..state });
            for must in musts {
                script.cut(must);
            }
        }
    }
}

/// A leg of a road is missing, all roads are driven one way, or there are two stations.
fn one_way_tables() -> [LegTable; 4] {
    let mut gap = but_one_road();
    gap.strike(&[(4, 2)]);
    [gap, ring(3), LegTable::full(2), LegTable::empty(2)]
}

fn with_leg(roads: &[Leg], (i, k): Leg) -> Rows {
    let mut must = must_of(roads);
    must[i - 1] |= 1 << (k - 1);
    must
}

/// On four stations without a road from 1 to 4: such a road, whole or one way; one that
/// stands, one way, alone or beside others; stations beyond n; a station itself.
fn stray_roads(script: &mut Script) {
    script.work(&WorkState::opened(&but_one_road(), LIMIT));
    for must in [
        must_of(&[(1, 4)]),
        must_of(&[(1, 2), (1, 4)]),
        with_leg(&[], (4, 1)),
        with_leg(&[], (1, 2)),
        with_leg(&[(1, 3), (2, 4)], (3, 2)),
        must_of(&[(1, 5)]),
        must_of(&[(5, 6)]),
        with_leg(&[], (2, 64)),
        with_leg(&[], (64, 2)),
        with_leg(&[], (2, 2)),
        with_leg(&[(1, 2)], (64, 64)),
        [u64::MAX; 64],
    ] {
        script.cut(&must);
    }
}

fn most_stations(script: &mut Script) {
    let table = two_way_ring(64);
    script.work(&WorkState::opened(&table, LIMIT));
    script.cut(&with_leg(&[], (64, 64)));
    script.cut(&with_leg(&[], (64, 1)));
    script.cut(&must_of(&[(1, 64), (2, 64)]));
}

/// Each for a reason of its own, some also with a table that is not two-way; with no
/// must-drive road and with a stray one.
fn bad_states(script: &mut Script) {
    let [good, one_way] = [two_way_ring(4), ring(4)].map(|table| WorkState::opened(&table, LIMIT));
    let with_row = |at: usize, row: u64| {
        let mut state = good;
        state.rows[at] = row;
        state
    };
    let place = last_place(4) + 1;
    for state in [
        WorkState::BLANK,
        WorkState { n: 0, ..good },
        WorkState { n: 1, ..good },
        WorkState { n: 65, ..good },
        WorkState { limit: 0, ..good },
        WorkState { limit: 65, ..good },
        WorkState { place, ..good },
        WorkState { place, ..one_way },
        WorkState {
            place,
            end: End::None,
            ..one_way
        },
        with_row(0, 1),
        with_row(0, 1 << 4),
        with_row(4, 1),
    ] {
        script.work(&state);
        script.cut(&NO_ROADS);
        script.cut(&with_leg(&[], (1, 1)));
    }
}
