//! Searches for the first round are held to the rounds of their table and to each other,
//! and with no other calls beside them to the runs of the same calls.

use super::call::{lent_buffer, Answer, Call};
use super::watch::{self, Watch};
use super::{draw, Found, Judge, Session};
use crate::card;
use crate::finder::laws::{fault, fault_beside_budget, fault_beside_moved, Search};
use crate::finder::laws::{fault_beside_own_runs, fault_beside_rounds, fault_beside_same_rounds};
use crate::finder::Outcome;
use crate::gen::{struck_above, two_sides, Xorshift};
use crate::stable::Fault;
use crate::state::{WorkState, LARGEST_LIMIT};

/// Searches that came out as is said of them.
#[derive(Clone, Debug, Default, PartialEq, Eq)]
pub struct SearchCounts {
    pub found: u64,
    /// Those found after a node without a round.
    pub found_late: u64,
    pub no_round: u64,
    /// Those without a round that entered several nodes.
    pub no_round_late: u64,
    /// Those whose budget was used up, and was not 0.
    pub used_up: u64,
    /// Those that came to an end with just their budget.
    pub just: u64,
    /// Those that came to an end with the largest budget.
    pub largest: u64,
    /// Those that came to an end on more stations than all rounds are tried on.
    pub wide: u64,
    /// Those on states with another place, mark or end.
    pub moved: u64,
    /// Those that found the same with another limit and another count of nodes.
    pub limits: u64,
    /// Those that found the same after calls that removed legs.
    pub after_calls: u64,
    /// Those refused with 7.
    pub bad_states: u64,
    /// Those refused with 9.
    pub wrong_lengths: u64,
}

impl SearchCounts {
    pub fn add(&mut self, other: &SearchCounts) {
        for (sum, count) in self.each_mut().into_iter().zip(other.clone().each_mut()) {
            *sum += *count;
        }
    }

    /// Is there a search of each kind?
    pub fn complete(&self) -> bool {
        self.clone().each_mut().into_iter().all(|count| *count > 0)
    }

    pub fn each_mut(&mut self) -> [&mut u64; 13] {
        [
            &mut self.found,
            &mut self.found_late,
            &mut self.no_round,
            &mut self.no_round_late,
            &mut self.used_up,
            &mut self.just,
            &mut self.largest,
            &mut self.wide,
            &mut self.moved,
            &mut self.limits,
            &mut self.after_calls,
            &mut self.bad_states,
            &mut self.wrong_lengths,
        ]
    }

    /// Notes a search in which nothing is wrong.
    fn note(&mut self, search: &Search) {
        let (nodes, stations) = (u64::from(search.sought.nodes), search.state.n);
        match search.sought.outcome {
            Outcome::Refused if search.sought.number == card::BAD_WORK_STATE => {
                self.bad_states += 1;
            }
            Outcome::Refused => self.wrong_lengths += 1,
            Outcome::Found => {
                self.found += 1;
                self.found_late += u64::from(nodes > stations + 1);
            }
            Outcome::NoRound => {
                self.no_round += 1;
                self.no_round_late += u64::from(nodes > 1);
            }
            Outcome::UsedUp => self.used_up += u64::from(search.budget > 0),
        }
        if search.is_whole() {
            self.just += u64::from(search.budget == search.sought.nodes);
            self.largest += u64::from(search.budget == u32::MAX);
            self.wide += u64::from(stations > SMALL);
        }
    }
}

/// Tables of more stations are searched less often and with a smaller budget.
const SMALL: u64 = watch::MOST_STATIONS;

/// The chance of searches on a table, in percent.
fn chance(n: u64) -> usize {
    match n {
        0..=SMALL => 100,
        9..=24 => 10,
        _ => 2,
    }
}

/// A budget that is often enough and does not take long.
fn most_nodes(n: u64) -> u32 {
    match n {
        0..=SMALL => u32::MAX,
        9..=24 => 3 * n as u32,
        _ => n as u32 + 20,
    }
}

fn made_for_searches(rng: &mut Xorshift) -> WorkState {
    if rng.percent(10) {
        return WorkState::opened(&struck_above(), LARGEST_LIMIT);
    }
    let table = two_sides(rng);
    WorkState::opened(&table, rng.pick(&[1, 2, 3, LARGEST_LIMIT]))
}

impl Session<'_> {
    /// Searches on the opened state and on states that calls have led to from it, that the
    /// following calls don't see.
    pub fn searches_and_back(&mut self, opened: &WorkState, led_to: [WorkState; 2]) -> Found<()> {
        let kept = self.state;
        self.apart(|session| {
            if session.rng.percent(chance(opened.n)) {
                session.searches(opened, led_to)?;
            }
            Ok(())
        })?;
        self.put(kept);
        Ok(())
    }

    /// The same on a table of no sheet, made for searches.
    pub fn searches_of_no_sheet(&mut self) -> Found<()> {
        self.apart(|session| {
            let opened = made_for_searches(&mut session.rng);
            session.watch = Watch::new(&opened, None);
            session.put(opened);
            session.drawn_call()?;
            let amid = session.state;
            session.drawn_call()?;
            session.searches(&opened, [amid, session.state])
        })
    }

    /// Each state that calls have led to has all rounds of the opened one.
    fn searches(&mut self, opened: &WorkState, led_to: [WorkState; 2]) -> Found<()> {
        let whole = self.first_search(opened)?;
        self.other_budgets(&whole)?;
        self.other_states(&whole, led_to)?;
        self.refused_searches(opened)
    }

    /// Where the fast calls take part, their search says as much as one by the runs of the
    /// tested calls.
    fn first_search(&mut self, opened: &WorkState) -> Found<Search> {
        let search = self.search(*opened, most_nodes(opened.n))?;
        if self.judge == Judge::Watches {
            self.hold_search(&search, fault_beside_own_runs(&search, self.tested))?;
        }
        Ok(search)
    }

    /// Is a search like this one made, too? On many stations it takes long, so that there is
    /// a chance in percent.
    fn takes_part(&mut self, before: &Search, chance: usize) -> bool {
        before.state.n <= SMALL || self.rng.percent(chance)
    }

    /// Fewer than the nodes of the search before, just as many, and more.
    fn other_budgets(&mut self, before: &Search) -> Found<()> {
        let nodes = before.sought.nodes;
        let few = [0, 1, nodes / 2, nodes - 1].into_iter();
        // Where the search before is not whole, these could take long.
        let many = [nodes, nodes + 1, 1_000_000, u32::MAX].into_iter();
        let whole = before.is_whole();
        for budget in few.chain(many.filter(|_| whole)) {
            if self.takes_part(before, 40) {
                let search = self.search(before.state, budget)?;
                self.hold_search(&search, fault_beside_budget(&search, before))?;
            }
        }
        Ok(())
    }

    /// The same table at another place, with another limit, and after calls.
    fn other_states(&mut self, before: &Search, led_to: [WorkState; 2]) -> Found<()> {
        let opened = before.state;
        let moved = draw::moved(&mut self.rng, &opened);
        let search = self.search(moved, before.budget)?;
        self.hold_search(&search, fault_beside_moved(&search, before))?;
        self.counts.searches.moved += u64::from(moved != opened);

        let drawn = self.rng.between(1, 64) as u64;
        for limit in [1, 2, 3, 64, drawn] {
            if self.takes_part(before, 30) {
                let search = self.search(WorkState { limit, ..opened }, before.budget)?;
                self.hold_search(&search, fault_beside_same_rounds(&search, before))?;
                let other_nodes = search.sought.nodes != before.sought.nodes;
                self.counts.searches.limits += u64::from(search.is_whole() && other_nodes);
            }
        }

        for state in led_to {
            let search = self.search(state, before.budget)?;
            self.hold_search(&search, fault_beside_same_rounds(&search, before))?;
            let fewer = search.ends_found() && state.rows != opened.rows;
            self.counts.searches.after_calls += u64::from(fewer);
        }
        Ok(())
    }

    /// Lists of other lengths, on a good state and on a bad one.
    fn refused_searches(&mut self, opened: &WorkState) -> Found<()> {
        let n = opened.n as usize;
        let budget = self.rng.pick(&[0, 1, u32::MAX]);
        let spoilt = draw::spoilt(&mut self.rng, opened);
        for length in [0, 1, n - 1, n + 1, 64 + n] {
            for state in [*opened, spoilt] {
                self.search_into(state, budget, length)?;
            }
        }
        self.search_into(spoilt, budget, n)?;
        Ok(())
    }

    /// A search on a good state into a list of its length. Its table has all rounds that
    /// are watched.
    fn search(&mut self, state: WorkState, budget: u32) -> Found<Search> {
        let search = self.search_into(state, budget, state.n as usize)?;
        self.hold_search(&search, fault_beside_rounds(&search, &self.watch.rounds))?;
        if search.ends_found() {
            self.check_found(&search.left)?;
        }
        Ok(search)
    }

    fn search_into(&mut self, state: WorkState, budget: u32, length: usize) -> Found<Search> {
        self.put(state);
        let answer = self.call(Call::FirstRound { budget, length })?;
        let Answer::Sought(sought, left) = answer else {
            unreachable!("a search answers {answer}");
        };
        let search = Search {
            state,
            budget,
            lent: lent_buffer(length),
            left,
            sought,
        };
        self.hold_search(&search, fault(&search))?;
        self.counts.searches.note(&search);
        Ok(search)
    }

    /// Of the last search.
    fn hold_search(&mut self, search: &Search, fault: Fault) -> Found<()> {
        let answer = Answer::Sought(search.sought, search.left.clone());
        self.hold_to(search.state, fault, &answer)
    }

    /// The list check of the tested calls on the state that was searched.
    fn check_found(&mut self, list: &[u8]) -> Found<()> {
        let numbers = list.to_vec();
        let answer = self.call(Call::List { numbers })?;
        match &answer {
            Answer::Checked(checked) if checked.yes => Ok(()),
            _ => Err(self.difference("the list check refuses what a search found", &answer)),
        }
    }
}
