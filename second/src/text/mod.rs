//! The text form of certificates.

mod decode;
mod encode;
mod field;
mod line;
mod record;
mod words;

pub use decode::decode;
pub use encode::{bytes_of, encode, records_of};
pub use field::{Field, ENTRY, GOAL, GOALS, HEADER, LINK, MODE, START, TURN};
pub use line::{green_links, records_of_line};
pub use record::{ModeGoal, Record};
pub use words::{numbered_lines, Words};

use std::fmt;

/// A bad line: its number, counted from 1, and what was expected there.
#[derive(Clone, Debug, PartialEq, Eq)]
pub struct Fault {
    pub line: usize,
    pub what: String,
}

impl Fault {
    pub fn new(line: usize, what: impl Into<String>) -> Fault {
        Fault {
            line,
            what: what.into(),
        }
    }
}

impl fmt::Display for Fault {
    fn fmt(&self, out: &mut fmt::Formatter<'_>) -> fmt::Result {
        write!(out, "{}: {}", self.line, self.what)
    }
}
