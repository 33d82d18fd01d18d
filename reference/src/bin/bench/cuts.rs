//! The cut step of two-way networks (W-209): times.

mod bars;
mod document;
mod networks;
mod steps;

pub use self::document::{section, HEADING};
