//! Sheets and tables that the specification and its sources name or describe.

use crate::gen::two_way;
use crate::table::LegTable;

/// The sheet of nine legs.
pub const NINE_LEGS: [u8; 27] = [
    6, //
    1, 0x0E, 0, 0, 0, 0, 0, 0, 0, //
    1, 0x11, 0, 0, 0, 0, 0, 0, 0, //
    4, 6, //
    4, 2, //
    4, 3, //
    4, 1,
];

/// What the program prints for the nine legs.
pub const NINE_LEGS_OUTPUT: &str = "\
stations 6 legs 9
steps 16 removed 3 end stable
1: 4
2: 5
3: 6
4: 2
5: 3
6: 1
";

/// Two triangles that share station 3.
pub fn butterfly() -> LegTable {
    two_way(5, &[(1, 2), (1, 3), (2, 3), (3, 4), (3, 5), (4, 5)])
}

/// The trap for handing out components greedily, as described in the yard.
/// From seed 1 the separator is {2, 3} with the components {1}, which fits 2
/// or 3 in an out-choice, and {4}, which fits only 2. Handing {1} to station 2
/// first leaves nothing for {4}, although 1→2→4→3→1 is a round.
pub fn greedy_trap() -> LegTable {
    LegTable::from_legs(4, [(1, 2), (1, 3), (2, 1), (3, 1), (2, 4), (4, 2), (4, 3)])
}

/// A valley driven the wrong way: 6→5 stands and 5→6 does not, so that the way in by
/// 1→5 does not lead to the way out by 6→2. From seed 4 the separator is {1, 2, 3}, only
/// 2 can take {5, 6} in an out-choice and only 1 in an in-choice, and 3→1 goes;
/// 1→4→3→2→6→5→1 is a round.
pub fn valley() -> LegTable {
    let others = [(1, 4), (2, 6), (3, 1), (3, 2), (4, 2), (4, 3), (5, 1)];
    LegTable::from_legs(6, [(1, 5), (6, 2), (6, 5)].into_iter().chain(others))
}

/// The same valley, entered at 5 and left from 6 alone: no choice can use it.
pub fn dead_end() -> LegTable {
    let others = [(2, 4), (3, 2), (4, 1), (4, 3)];
    LegTable::from_legs(6, [(1, 5), (6, 2), (6, 5)].into_iter().chain(others))
}

/// The Petersen graph, a pentagon around a pentagram: 10 stations and 30 legs, and no round.
pub fn petersen() -> LegTable {
    let pentagon = [(1, 2), (2, 3), (3, 4), (4, 5), (5, 1)];
    let spokes = [(1, 6), (2, 7), (3, 8), (4, 9), (5, 10)];
    let pentagram = [(6, 8), (8, 10), (10, 7), (7, 9), (9, 6)];
    two_way(10, &[pentagon, spokes, pentagram].concat())
}

/// The catalogue's instance with all solutions listed, own stations left out.
pub fn catalogue() -> LegTable {
    let from_1_and_2 = [(1, 3), (1, 4), (2, 1)];
    let from_3_and_4 = [(3, 1), (3, 2), (3, 4), (4, 2), (4, 3)];
    LegTable::from_legs(4, from_1_and_2.into_iter().chain(from_3_and_4))
}

/// The catalogue's solution counts for full tables of 2 to 10 stations.
pub const SOLUTION_COUNTS: [(usize, usize); 9] = [
    (2, 1),
    (3, 2),
    (4, 6),
    (5, 24),
    (6, 120),
    (7, 720),
    (8, 5_040),
    (9, 40_320),
    (10, 362_880),
];
