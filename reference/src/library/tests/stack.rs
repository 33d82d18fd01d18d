//! How much stack a search takes: it is made on lent bytes, and those that it has written
//! are counted.

use std::arch::asm;
use std::mem::{size_of, size_of_val};

use crate::finder::Outcome;
use crate::gen::{band, plant_round, random, ring, Xorshift};
use crate::library::{outcome, raw};
use crate::state::WorkState;
use crate::table::LegTable;
use crate::words::{to_words, Words, N};

/// No search takes so many bytes of stack; the header says the same.
const STACK_BYTES: usize = 64 * 1024;

/// The words of the lent stack, aligned as the ABI asks. A search that needs more than
/// `STACK_BYTES` still has room, so that its need is told.
const LENT_WORDS: usize = 4 * STACK_BYTES / size_of::<u128>();
/// What they hold before.
const PAINT: u128 = u128::from_ne_bytes([0xC5; 16]);

/// A search with what it writes.
struct Search {
    words: Words,
    budget: u32,
    list: [u8; 64],
    outcome: u32,
    nodes: u32,
}

impl Search {
    extern "C" fn make(&mut self) {
        let n = self.words[N] as usize;
        let (list, outcome, nodes) = (&mut self.list[..n], &mut self.outcome, &mut self.nodes);
        raw::first_round(&self.words, self.budget, list, outcome, nodes);
    }
}

/// Makes the search on a stack of its own and tells how many bytes of it were written.
fn bytes_taken(search: &mut Search) -> usize {
    let mut stack = vec![PAINT; LENT_WORDS];
    // A stack grows down from its end.
    let top = stack.as_mut_ptr_range().end;
    // SAFETY: the stack lives as long as the call; r12 keeps the stack pointer over the
    // call, which does not unwind.
    unsafe {
        asm!(
            "xchg rsp, r12",
            "call {make}",
            "mov rsp, r12",
            make = in(reg) Search::make as extern "C" fn(&mut Search),
            inout("r12") top => _,
            in("rdi") search,
            clobber_abi("C"),
        );
    }
    let untouched = stack.iter().take_while(|&&word| word == PAINT).count();
    size_of_val(&stack[untouched..])
}

/// A search on 64 stations that enters at most so many nodes.
fn search(table: &LegTable, limit: u64, budget: u32) -> Search {
    Search {
        words: to_words(&WorkState::opened(table, limit)),
        budget,
        list: [0; 64],
        outcome: u32::MAX,
        nodes: u32::MAX,
    }
}

/// A ring with chords that lead on by 2 to 9 stations.
fn ring_with_chords(rng: &mut Xorshift) -> LegTable {
    let mut table = ring(64);
    for i in 1..=64 {
        let ahead = rng.between(2, 9);
        table.add(i, (i + ahead - 1) % 64 + 1);
    }
    table
}

/// About three legs from each station, with a round among them.
fn three_legs(rng: &mut Xorshift) -> LegTable {
    let mut table = random(rng, 64, 3);
    plant_round(rng, &mut table);
    table
}

/// Found rounds lie on the deepest level.
#[test]
fn a_search_takes_less_stack_than_is_said() {
    let mut rng = Xorshift::new(41);
    let full = LegTable::full(64);
    let mut tables = vec![full, ring(64), band(64)];
    for _ in 0..6 {
        tables.push(ring_with_chords(&mut rng));
        tables.push(three_legs(&mut rng));
    }
    let (mut most, mut found) = (0, 0);
    for table in &tables {
        for limit in [1, 2, 64] {
            let mut search = search(table, limit, 150);
            most = most.max(bytes_taken(&mut search));
            found += usize::from(outcome(search.outcome) == Outcome::Found);
        }
    }
    assert!(found > 20, "{found} rounds found");
    assert!(most < STACK_BYTES, "{most} bytes of stack");
    assert!(super::header_has("FIRST_ROUND_STACK", STACK_BYTES));
}
