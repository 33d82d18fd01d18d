//! The vectors of the search for the first round, by the bytes of their script and the text
//! of its answers alone: what is found is the first round of the table, no larger budget
//! changes it or a no round, and where none is found the list is left as it was.

use std::collections::BTreeSet;

use reference::rounds::rounds;
use reference::script::FILLER;
use reference::{bad, paper, vectors, End, Fast, LegTable, WorkState};

use crate::opened;
use crate::parts::{parts, state_of, Call, Part};
use crate::scripts::answers;

const REFUSED: u32 = 0;
const FOUND: u32 = 1;
const NO_ROUND: u32 = 2;
const USED_UP: u32 = 3;

/// A search as it is answered.
#[derive(Clone, Debug, PartialEq, Eq)]
struct Search {
    budget: u32,
    number: u32,
    outcome: u32,
    nodes: u32,
    list: Vec<u8>,
}

impl Search {
    fn new(call: &Call) -> Search {
        let words: Vec<&str> = call.answer.split(' ').collect();
        let ["first", number, "outcome", outcome, "nodes", nodes] = words[..] else {
            panic!("not a search: {}", call.answer);
        };
        let [number, outcome, nodes] = [number, outcome, nodes].map(|word| {
            let number = word.parse();
            number.expect("a number")
        });
        let (budget, length) = call.arguments.split_at(4);
        let list = bytes(&call.after);
        assert_eq!(list.len(), usize::from(length[0]));
        Search {
            budget: u32::from_le_bytes(budget.try_into().expect("four bytes")),
            number,
            outcome,
            nodes,
            list,
        }
    }

    /// Was the whole tree searched, or as much as there is up to the first round?
    fn ended(&self) -> bool {
        self.outcome == FOUND || self.outcome == NO_ROUND
    }

    fn left_its_list(&self) -> bool {
        self.list.iter().all(|&byte| byte == FILLER)
    }
}

/// Of two hexadecimal digits each.
fn bytes(digits: &str) -> Vec<u8> {
    let byte = |at: usize| u8::from_str_radix(&digits[at..at + 2], 16).expect("two digits");
    (0..digits.len()).step_by(2).map(byte).collect()
}

/// A state, and the searches from there.
#[derive(Clone, Debug)]
struct Row {
    state: WorkState,
    searches: Vec<Search>,
}

impl Row {
    /// The search that came to its end, if one did.
    fn whole(&self) -> Option<&Search> {
        self.searches.iter().find(|search| search.ended())
    }
}

/// A row after each call that may change the state.
fn rows_of(part: &Part) -> Vec<Row> {
    let mut rows: Vec<Row> = Vec::new();
    for call in [&part.made].into_iter().chain(&part.calls) {
        match rows.last_mut() {
            Some(row) if call.opcode == b'F' => row.searches.push(Search::new(call)),
            _ => rows.push(Row {
                state: state_of(&call.after),
                searches: Vec::new(),
            }),
        }
    }
    rows
}

/// The rows of each state that is made.
fn all_rows() -> Vec<Vec<Row>> {
    let script = vectors::finder();
    let text = String::from_utf8(answers(&Fast, script.bytes())).expect("text");
    let parts = parts(script.bytes(), &text);
    parts.iter().map(rows_of).collect()
}

/// Does the list drive to all stations along legs of the table?
fn is_round(state: &WorkState, list: &[u8]) -> bool {
    let mut visited = BTreeSet::new();
    let mut at = 1;
    while visited.insert(at) {
        let next = list[at - 1];
        if !(1..=64).contains(&next) || state.rows[at - 1] >> (next - 1) & 1 == 0 {
            return false;
        }
        at = usize::from(next);
    }
    at == 1 && visited.len() as u64 == state.n
}

/// What a search answers otherwise than its state, its list and its budget allow.
fn fault(state: &WorkState, search: &Search) -> Option<&'static str> {
    let Search { budget, nodes, .. } = *search;
    let number = if bad(state) {
        7
    } else if search.list.len() as u64 != state.n {
        9
    } else {
        0
    };
    let nodes_fit = match search.outcome {
        REFUSED => nodes == 0,
        // One node for each station and the root, at least.
        FOUND => u64::from(nodes) > state.n && nodes <= budget,
        NO_ROUND => 0 < nodes && nodes <= budget,
        USED_UP => nodes == budget,
        _ => false,
    };
    let list_fits = match search.outcome {
        FOUND => is_round(state, &search.list),
        _ => search.left_its_list(),
    };
    let checks = [
        ("number", search.number == number),
        ("outcome", (search.outcome == REFUSED) == (number != 0)),
        ("nodes", nodes_fit),
        ("list", list_fits),
    ];
    let fault = checks.iter().find(|(_, holds)| !holds);
    fault.map(|&(name, _)| name)
}

/// What the searches of a row have otherwise than each other. With at least the budget
/// that the whole one takes each is the same, with less each is used up.
fn fault_of_row(row: &Row) -> Option<&'static str> {
    let single = |search: &Search| fault(&row.state, search);
    let whole = row.whole();
    let beside = |search: &Search| {
        let whole = whole.filter(|_| search.number == 0)?;
        let expected = Search {
            budget: search.budget,
            ..whole.clone()
        };
        let enough = search.budget >= whole.nodes;
        let fits = if enough {
            *search == expected
        } else {
            search.outcome == USED_UP
        };
        (!fits).then_some("budgets")
    };
    let mut searches = row.searches.iter();
    searches.find_map(|search| single(search).or_else(|| beside(search)))
}

#[test]
fn searches_fit_their_states_and_budgets() {
    for row in all_rows().iter().flatten() {
        assert_eq!(fault_of_row(row), None, "{row:?}");
    }
}

/// The first of all rounds, tried one by one.
fn first_of(table: &LegTable) -> Option<Vec<u8>> {
    let first = rounds(table).into_iter().min()?;
    Some(first.into_iter().map(|next| next as u8).collect())
}

#[test]
fn the_first_round_of_small_tables_is_found() {
    for row in all_rows().iter().flatten() {
        let whole = row.whole().filter(|_| row.state.n <= 9);
        if let Some(search) = whole {
            let found = (search.outcome == FOUND).then(|| search.list.clone());
            assert_eq!(found, first_of(&row.state.table()), "{}", row.state);
        }
    }
}

/// No call between them strikes a leg of a round, though each row of them strikes some.
#[test]
fn searches_after_calls_find_the_same() {
    let mut changed = 0;
    for rows in all_rows() {
        let whole = rows.iter().filter_map(Row::whole);
        let found: BTreeSet<_> = whole.map(|search| (search.outcome, &search.list)).collect();
        assert!(found.len() <= 1, "{rows:?}");
        let tables: BTreeSet<_> = rows.iter().map(|row| row.state.rows).collect();
        changed += usize::from(tables.len() > 1);
    }
    assert_eq!(changed, 9);
}

type Change = fn(&mut Row);

/// In a row with budgets of 0, 1, half, one less than it takes, just enough, one more and
/// the most.
#[test]
fn a_change_of_any_part_is_found() {
    let all = all_rows();
    let fits = |row: &&Row| {
        let found = row.whole().is_some_and(|search| search.outcome == FOUND);
        found && row.searches.len() == 7
    };
    let row = all.iter().flatten().find(fits).expect("a row");
    let changes: [(&str, Change); 12] = [
        ("number", |row| row.searches[0].number = 7),
        ("number", |row| row.state.limit = 0),
        ("number", |row| row.searches[5].list.push(1)),
        ("outcome", |row| row.searches[4].outcome = REFUSED),
        ("nodes", |row| row.searches[1].nodes = 0),
        ("nodes", |row| row.searches[3].outcome = FOUND),
        ("nodes", |row| row.searches[4].nodes += 1),
        ("list", |row| row.searches[3].list[0] = 1),
        ("list", |row| row.searches[4].list.swap(0, 1)),
        ("list", |row| row.searches[6].list.fill(FILLER)),
        ("budgets", |row| row.searches[6].nodes += 1),
        ("budgets", |row| {
            let nodes = row.searches[3].nodes;
            let list = row.searches[3].list.clone();
            row.searches[4] = Search {
                outcome: NO_ROUND,
                nodes,
                list,
                ..row.searches[4]
            };
        }),
    ];
    assert_eq!(fault_of_row(row), None);
    for (part, change) in changes {
        let mut changed = row.clone();
        change(&mut changed);
        assert_eq!(fault_of_row(&changed), Some(part), "{changed:?}");
    }
}

#[test]
fn the_named_tables_are_among_the_vectors() {
    let all = all_rows();
    let whole = |table: &LegTable| {
        let mut rows = all.iter().flatten();
        let row = rows.find(|row| row.state == opened(table));
        let search = row.and_then(Row::whole).expect("a whole search");
        (search.outcome, search.nodes, search.list.clone())
    };
    let nine_legs = reference::open(&paper::NINE_LEGS, 64).state.table();
    for (table, nodes, list) in [
        (LegTable::full(2), 3, vec![2, 1]),
        (LegTable::full(3), 4, vec![2, 3, 1]),
        (paper::catalogue(), 5, vec![3, 1, 4, 2]),
        (nine_legs, 7, vec![4, 5, 6, 2, 3, 1]),
    ] {
        assert_eq!(whole(&table), (FOUND, nodes, list));
    }
    for (table, nodes) in [(paper::butterfly(), 1), (paper::petersen(), 46)] {
        let list = vec![FILLER; table.n()];
        assert_eq!(whole(&table), (NO_ROUND, nodes, list));
    }
}

#[test]
fn every_kind_of_search_is_among_the_vectors() {
    let all = all_rows();
    let rows: Vec<&Row> = all.iter().flatten().collect();
    let any = |kind: &dyn Fn(&WorkState, &Search) -> bool| {
        let mut searches = rows.iter().map(|row| (&row.state, &row.searches));
        searches.any(|(state, searches)| searches.iter().any(|search| kind(state, search)))
    };
    for n in (2..=12).chain([16, 32, 64]) {
        assert!(any(&|state, search| state.n == n && search.ended()));
    }
    for outcome in [FOUND, NO_ROUND] {
        let is = |search: &Search| search.outcome == outcome;
        // With just enough budget and with the most.
        assert!(any(&|_, search| is(search) && search.nodes == search.budget));
        assert!(any(&|_, search| is(search) && search.budget == u32::MAX));
        assert!(any(&|_, search| is(search) && search.nodes > 80));
        for end in [End::Open, End::Stable, End::None] {
            assert!(any(&|state, search| is(search)
                && state.end == end
                && state.place > 0
                && state.mark));
        }
        for limit in [1, 2, 64] {
            assert!(any(&|state, search| is(search) && state.limit == limit));
        }
    }
    // One node less than it takes, found or not.
    for outcome in [FOUND, NO_ROUND] {
        assert!(rows.iter().any(|row| {
            let whole = row.whole().filter(|whole| whole.outcome == outcome);
            whole.is_some_and(|whole| {
                let mut budgets = row.searches.iter().map(|search| search.budget);
                whole.nodes > 1 && budgets.any(|budget| budget == whole.nodes - 1)
            })
        }));
    }
    assert!(any(&|_, search| search.number == 0 && search.budget == 0));
    // Lists that are empty, shorter and longer.
    for fits in [
        |_: usize, length: usize| length == 0,
        |n: usize, length: usize| 0 < length && length < n,
        |n: usize, length: usize| length > n,
    ] {
        assert!(any(
            &|state, search| search.number == 9 && fits(state.n as usize, search.list.len())
        ));
    }
    // The same table with another limit has other nodes.
    assert!(rows.iter().any(|row| rows.iter().any(|other| {
        let nodes = |row: &Row| row.whole().map(|whole| whole.nodes);
        row.state.rows == other.state.rows && nodes(row) != nodes(other)
    })));
}
