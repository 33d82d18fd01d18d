//! A plain implementation of the leg-table filter for the circuit constraint.
//!
//! The calls work on plain sets of station numbers, so that each rule reads
//! like its definition. Speed is no concern here; [`fast`] holds the same calls
//! over words of bits.
//!
//! Every call answers with a number of the radio card ([`card`]), 0 for taken.

pub mod calls;
pub mod card;
pub mod ceiling;
pub mod chain;
pub mod choices;
pub mod compare;
pub mod cut;
pub mod fast;
pub mod filled;
pub mod finder;
pub mod gen;
pub mod graph;
pub mod hand;
#[cfg(feature = "library")]
pub mod library;
pub mod lines;
pub mod list;
pub mod paper;
pub mod pass;
pub mod preview;
pub mod program;
pub mod rounds;
pub mod run;
pub mod script;
pub mod sheet;
pub mod stable;
pub mod state;
pub mod sweep;
pub mod table;
pub mod turns;
pub mod vectors;
pub mod words;
pub mod written;

pub use calls::{Calls, Fast, Plain, Telling};
pub use chain::chain;
pub use cut::{cut, Cut};
pub use filled::Filled;
pub use finder::{first_round, Outcome, Sought};
pub use hand::Handled;
#[cfg(feature = "library")]
pub use library::Library;
pub use lines::report;
pub use list::{list_check, Checked};
pub use pass::pass;
pub use preview::{preview, HandStep, Preview};
pub use run::{run, Ran};
pub use sheet::{open, Opened};
pub use state::{bad, End, WorkState};
pub use sweep::sweep;
pub use table::LegTable;
pub use written::write;
