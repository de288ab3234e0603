//! Compares the library with the second checker, and with plain checkers made for speed.

pub mod bench;
pub mod comparisons;
pub mod differential;
pub mod fast;
pub mod generate;
pub mod library;
pub mod numbers;
pub mod pairs;
pub mod peer;
pub mod readings;
pub mod roadside;
pub mod samples;
pub mod sides;
pub mod tally;
