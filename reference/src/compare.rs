//! Calls under test beside the plain and the fast ones, on made-up sheets: every
//! answer is compared whole, and what holds of all sequences is tried as well.

mod call;
pub mod ceilings;
mod counts;
pub mod cuts;
mod difference;
mod draw;
pub mod finder;
mod islands;
mod made;
pub mod neighbours;
pub mod previews;
pub mod stable;
pub mod turns;
pub mod valleys;
mod watch;
mod written;

use std::fmt::Display;
use std::mem;
use std::panic::{catch_unwind, AssertUnwindSafe};

use self::call::{Answer, Call};
use self::difference::Step;
use self::made::{Kind, Known};
use self::stable::Way;
use self::watch::Watch;
use crate::calls::{Calls, Fast, Plain};
use crate::card;
use crate::gen::Xorshift;
use crate::program;
use crate::state::WorkState;

pub use self::counts::{ChainCounts, Counts};
pub use self::difference::Difference;
pub use self::islands::IslandCounts;
pub use self::made::Made;
pub use self::written::WrittenCounts;

type Found<T> = Result<T, Box<Difference>>;

/// Compares on one sheet. Seed and index alone decide on all that is done.
pub fn compare_sheet(tested: &dyn Calls, seed: u64, index: u64) -> Found<Counts> {
    go_through(tested, seed, index, Judge::Others)
}

/// Makes the same calls with no others beside them: what holds of all calls has to tell
/// alone that one is wrong.
pub fn watch_sheet(tested: &dyn Calls, seed: u64, index: u64) -> Found<Counts> {
    go_through(tested, seed, index, Judge::Watches)
}

/// Who says that an answer is wrong.
#[derive(Clone, Copy, Debug, PartialEq, Eq)]
enum Judge {
    /// The fast and the plain answers, and the watches.
    Others,
    Watches,
}

fn go_through(tested: &dyn Calls, seed: u64, index: u64, judge: Judge) -> Found<Counts> {
    let mut rng = Xorshift::new(seed.rotate_left(32) ^ index);
    let made = Made::new(&mut rng, index);
    let mut session = Session {
        tested,
        judge,
        rng,
        made,
        state: WorkState::BLANK,
        watch: Watch::nothing(),
        in_turns: false,
        on_stable: false,
        way: Way::default(),
        steps: Vec::new(),
        counts: Counts::default(),
    };
    let taken = session.opening()?;
    session.prints()?;
    if taken {
        session.sequence()?;
        session.state_of_no_opening()?;
        session.searches_of_no_sheet()?;
        session.cuts_of_no_sheet()?;
    } else {
        session.each_call()?;
    }
    Ok(session.counts)
}

struct Session<'a> {
    tested: &'a dyn Calls,
    judge: Judge,
    rng: Xorshift,
    made: Made,
    state: WorkState,
    watch: Watch,
    /// Are the runs those of a split budget?
    in_turns: bool,
    /// Are the calls those on a stable state, or on one opened anew?
    on_stable: bool,
    way: Way,
    steps: Vec<Step>,
    counts: Counts,
}

impl Session<'_> {
    /// Opens the sheet with a bad and a good limit; is it taken?
    fn opening(&mut self) -> Found<bool> {
        let limit = draw::bad_limit(&mut self.rng);
        self.call(Call::Open { limit })?;
        let limit = draw::good_limit(&mut self.rng);
        let answer = self.call(Call::Open { limit })?;
        self.hold_to_known(&answer)?;
        let taken = answer.number() == 0;
        if taken {
            self.watch = Watch::new(&self.state, self.made.round.as_ref());
            self.counts.watched += u64::from(!self.watch.rounds.is_empty());
        }
        Ok(taken)
    }

    /// The way a sheet was made may say what opening it gives.
    fn hold_to_known(&self, answer: &Answer) -> Found<()> {
        let Answer::Opened(opened) = answer else {
            return Ok(());
        };
        let as_known = match &self.made.known {
            Known::Nothing => true,
            Known::Table(table) => opened.number == 0 && opened.state.rows == table.rows(),
            Known::Refusal { number, place } => {
                (opened.number, opened.place) == (*number, *place as u64)
            }
        };
        if as_known {
            return Ok(());
        }
        Err(self.difference("the sheet was made to open otherwise", answer))
    }

    /// The program's text into buffers of every length that matters. The text is
    /// made once: most of a print is the run.
    fn prints(&mut self) -> Found<()> {
        let text = program::output(&Fast, &self.made.bytes);
        let call = Call::Print { length: text.len() };
        let with_plain = self.plain_takes_part(&call);
        let same = !with_plain || text == program::output(&Plain, &self.made.bytes);
        for length in draw::print_lengths(&text) {
            let call = Call::Print { length };
            self.steps.push(Step::Call(call.clone()));
            let answer = self.answer_under_test(&call)?;
            if self.judge == Judge::Others {
                if answer != Answer::printed(&text, length) {
                    return Err(self.difference("the fast answer differs", &answer));
                }
                if !same {
                    return Err(self.difference("the plain answer differs", &answer));
                }
            }
            if ceilings::says_open(answer.written()) {
                return Err(self.difference("the program's text says open", &answer));
            }
            self.counts.note(&answer);
            self.counts.plain += u64::from(with_plain);
        }
        Ok(())
    }

    /// Writes, runs with their ceiling, runs in turns, a chain step and a cut step on the
    /// opened state, on some tables passes and other runs too, then calls in any order, the
    /// whole run, and more calls on the ended state: runs in turns, some of any kind, then
    /// reports and writes into buffers of every length that matters. Each stable state is
    /// held to what is said of it. Searches come last, on the states at the start, amid and
    /// at the end.
    fn sequence(&mut self) -> Found<()> {
        let opened = self.state;
        self.writes()?;
        self.ceilings_and_back()?;
        self.turns_from_the_start()?;
        self.chain_and_back()?;
        self.cut_and_back()?;
        match self.made.kind {
            Kind::Any => {}
            Kind::Islands => self.islands_and_back()?,
            Kind::Striking => self.seeds_and_back()?,
            Kind::Valleys { seed } => self.valleys_and_back(seed)?,
        }
        for _ in 0..self.rng.between(4, 9) {
            match self.rng.below(12) {
                0 => self.bad_state()?,
                1 => self.second_try()?,
                _ => self.any_call()?,
            }
        }
        let amid = self.state;
        let budget = u32::MAX;
        self.call(Call::Run { budget })?;
        self.hold_stable()?;
        self.turns_and_back()?;
        for _ in 0..3 {
            self.any_call()?;
        }
        for length in draw::report_lengths(&self.state) {
            self.call(Call::Report { length })?;
        }
        self.writes()?;
        self.searches_and_back(&opened, [amid, self.state])
    }

    /// A chain step that the following calls don't see.
    fn chain_and_back(&mut self) -> Found<()> {
        let kept = self.state;
        self.call(Call::Chain)?;
        self.put(kept);
        Ok(())
    }

    /// Passes and runs with a low limit that the following calls don't see, each
    /// from a state of its own: after none there is nothing to compare.
    fn islands_and_back(&mut self) -> Found<()> {
        let kept = self.state;
        for _ in 0..3 {
            let narrow = draw::narrow(&mut self.rng, &kept);
            let calls = [
                draw::sound_pass(&mut self.rng, &narrow),
                draw::run(&mut self.rng, &narrow),
            ];
            for call in calls {
                self.put(narrow);
                self.call(call)?;
            }
        }
        self.put(kept);
        Ok(())
    }

    /// Each pass on the opened state, by hand and as the first step of a whole run,
    /// that the following calls don't see.
    fn seeds_and_back(&mut self) -> Found<()> {
        let kept = self.state;
        for seed in 1..=kept.n {
            self.call(Call::Pass { seed })?;
            let place = seed + 1;
            self.put(WorkState { place, ..kept });
            let budget = u32::MAX;
            self.call(Call::Run { budget })?;
            self.put(kept);
        }
        Ok(())
    }

    /// A call on the same state as the one before had.
    fn second_try(&mut self) -> Found<()> {
        let (kept, by_hand) = (self.state, self.way.by_hand);
        self.any_call()?;
        self.put(kept);
        self.way.by_hand = by_hand;
        self.any_call()
    }

    /// Runs in turns and all calls on a bad state, then back to the good one.
    fn bad_state(&mut self) -> Found<()> {
        let kept = self.state;
        let spoilt = draw::spoilt(&mut self.rng, &kept);
        self.put(spoilt);
        self.split_and_back()?;
        self.each_call()?;
        self.put(kept);
        Ok(())
    }

    /// A good state in which place, mark and end do not come from calls, so
    /// that nothing is claimed of the rounds.
    fn state_of_no_opening(&mut self) -> Found<()> {
        if !self.rng.percent(40) {
            return Ok(());
        }
        self.watch = Watch::nothing();
        self.call(Call::Open { limit: 64 })?;
        self.made_up_stable()?;
        let moved = draw::moved(&mut self.rng, &self.state);
        self.put(moved);
        self.writes()?;
        self.chain_and_back()?;
        self.cut_and_back()?;
        self.turns_of_no_opening()?;
        for _ in 0..4 {
            self.drawn_call()?;
        }
        Ok(())
    }

    /// A call of a sequence; a stable state that it leads to is held to what is said of it.
    fn any_call(&mut self) -> Found<()> {
        let answer = self.drawn_call()?;
        self.way.note(&answer);
        self.hold_stable()
    }

    fn drawn_call(&mut self) -> Found<Answer> {
        let call = draw::call(&mut self.rng, &self.state, &self.watch.rounds);
        self.call(call)
    }

    fn each_call(&mut self) -> Found<()> {
        for call in draw::each_call(&mut self.rng, &self.state, &self.watch.rounds) {
            self.call(call)?;
        }
        self.apart(Session::drawn_cut)
    }

    fn put(&mut self, state: WorkState) {
        self.steps.push(Step::Put(Box::new(state)));
        self.state = state;
    }

    /// Calls with draws of their own: the other calls of a sequence are the same without
    /// them.
    fn apart(&mut self, calls: impl FnOnce(&mut Self) -> Found<()>) -> Found<()> {
        let own = self.rng.apart();
        let kept = mem::replace(&mut self.rng, own);
        calls(self)?;
        self.rng = kept;
        Ok(())
    }

    /// Makes a call and goes on from the state it hands back. A step by hand is mostly
    /// previewed before.
    fn call(&mut self, call: Call) -> Found<Answer> {
        let previewed = self.preview_before(&call)?;
        let answer = self.call_alone(call)?;
        self.hold_to_step(previewed, &answer)?;
        Ok(answer)
    }

    fn call_alone(&mut self, call: Call) -> Found<Answer> {
        let with_plain = self.plain_takes_part(&call);
        self.steps.push(Step::Call(call.clone()));
        let answer = self.answer_under_test(&call)?;
        if self.judge == Judge::Others {
            if answer != self.make(&call, &Fast) {
                return Err(self.difference("the fast answer differs", &answer));
            }
            if with_plain && answer != self.make(&call, &Plain) {
                return Err(self.difference("the plain answer differs", &answer));
            }
        }
        self.hold_to_ceiling(&call, &answer)?;
        self.hold_cut(&call, &answer)?;
        self.hold_preview(&call, &answer)?;
        self.count_taken(&call, &answer);
        if let Some(state) = answer.state() {
            if let Some(fault) = self.watch.fault(state) {
                return Err(self.difference(fault, &answer));
            }
            self.state = *state;
        }
        self.counts.note(&answer);
        self.counts.plain += u64::from(with_plain);
        Ok(answer)
    }

    /// Counts a chain step, a pass or a run by what it did to the current state. Stable
    /// ones have counts of their own.
    fn count_taken(&mut self, call: &Call, answer: &Answer) {
        if answer.number() != card::TAKEN || self.on_stable {
            return;
        }
        let (state, counts) = (&self.state, &mut self.counts);
        match (call, answer) {
            (Call::Chain, Answer::Handled(chained)) => counts.chains.note(state, chained),
            (Call::Pass { seed }, Answer::Handled(passed)) if (1..=state.n).contains(seed) => {
                counts.islands.note(state, *seed, passed);
                counts.neighbours.note_pass(state, *seed, passed);
            }
            (Call::Run { budget }, Answer::Ran(ran)) => {
                counts.neighbours.note_run(state, *budget, ran);
                counts.ceilings.note(state, *budget, ran);
            }
            _ => {}
        }
    }

    fn make(&self, call: &Call, calls: &dyn Calls) -> Answer {
        call.make(calls, &self.made.bytes, &self.state)
    }

    /// Plain calls on many stations take long, so not all of them are made.
    fn plain_takes_part(&mut self, call: &Call) -> bool {
        let chance = match (call, self.state.n) {
            (Call::Open { .. } | Call::OpenWritten { .. } | Call::Write { .. }, _) => 100,
            (Call::FirstRound { .. }, 0..=8) => 5,
            (Call::FirstRound { .. }, _) => 0,
            (Call::Cut { .. }, 25..=64) => 10,
            (Call::Preview { .. }, n) => previews::plain_chance(n, self.on_stable),
            (_, 0..=12) => 100,
            (_, 13..=24) if self.on_stable => 5,
            (_, 25..=64) if self.on_stable => 1,
            (Call::Run { budget: 5.. }, 13..=24) if self.in_turns => 5,
            (Call::Run { budget: 5.. }, 25..=64) if self.in_turns => 1,
            (Call::Run { .. }, 13..=24) => 50,
            (Call::Print { .. }, 13..=24) => 15,
            (Call::Print { .. }, 25..=64) => 2,
            (Call::Run { budget: 5.. }, 25..=64) => 5,
            (_, 13..=24) => 100,
            _ => 40,
        };
        self.rng.percent(chance)
    }

    /// A panic is a difference like any other.
    fn answer_under_test(&self, call: &Call) -> Found<Answer> {
        catch_unwind(AssertUnwindSafe(|| self.make(call, self.tested)))
            .map_err(|_| self.difference("the tested call panicked", &"panic"))
    }

    /// Tells of the last call, with the answers that it gets elsewhere.
    fn difference(&self, reason: &'static str, answer: &dyn Display) -> Box<Difference> {
        let mut answers = vec![("tested", answer.to_string())];
        if let Some(Step::Call(call)) = self.steps.last() {
            answers.push(("fast", self.make(call, &Fast).to_string()));
            answers.push(("plain", self.make(call, &Plain).to_string()));
        }
        Box::new(Difference {
            sheet: self.made.bytes.clone(),
            steps: self.steps.clone(),
            reason,
            answers,
        })
    }
}
