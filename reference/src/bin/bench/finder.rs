//! The search for the first round (W-210): nodes and times.

mod aims;
mod document;
mod searches;
mod tables;

pub use self::document::{section, HEADING};
