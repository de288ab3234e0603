//! One record as a line writes it.

use super::field::{Field, ENTRY, GOAL, GOALS, HEADER, LINK, MODE, START, TURN};
use crate::certificate::Kind;

/// Numbers fit their fields; nothing else is known of them.
#[derive(Clone, Debug, PartialEq, Eq)]
pub enum Record {
    /// Counts that are not given are taken from the other records.
    Header {
        kind: Kind,
        counts: [Option<u16>; 6],
    },
    /// A start flow that is not given is left out.
    Link {
        values: [u16; 6],
        start: Option<u16>,
    },
    Turn([u16; 4]),
    Signal(u8),
    /// A goal that is not given is left out.
    Mode {
        values: [u16; 1],
        goal: Option<ModeGoal>,
    },
    Grid {
        count: u8,
        cuts: Vec<u16>,
    },
    /// Low and high of each link.
    Arrivals(Vec<[u16; 2]>),
    Entry([u16; 5]),
    End,
    /// Bytes as they stand, no record.
    Bytes(Vec<u8>),
}

/// The goal of a mode, of any length.
#[derive(Clone, Debug, PartialEq, Eq)]
pub struct ModeGoal {
    pub number: u16,
    pub goals: Vec<u16>,
}

impl ModeGoal {
    fn put(&self, bytes: &mut Vec<u8>) {
        GOAL.put(self.number, bytes);
        self.goals.iter().for_each(|&goal| GOALS.put(goal, bytes));
    }
}

impl Record {
    /// The first word of its line.
    pub fn kind(&self) -> &'static str {
        match self {
            Record::Header { .. } => "header",
            Record::Link { .. } => "link",
            Record::Turn(_) => "turn",
            Record::Signal(_) => "signal",
            Record::Mode { .. } => "mode",
            Record::Grid { .. } => "grid",
            Record::Arrivals(_) => "arrivals",
            Record::Entry(_) => "entry",
            Record::End => "end",
            Record::Bytes(_) => "bytes",
        }
    }

    /// Adds its bytes; `counts` are the six of the header.
    pub fn put(&self, counts: &[u16; 6], bytes: &mut Vec<u8>) {
        match self {
            Record::Header { kind, .. } => put_fields(kind.mark(), &HEADER, counts, bytes),
            Record::Link { values, start } => {
                put_fields(b"LK", &LINK, values, bytes);
                start.iter().for_each(|&start| START.put(start, bytes));
            }
            Record::Turn(values) => put_fields(b"TN", &TURN, values, bytes),
            Record::Signal(green) => bytes.extend([b'S', b'G', *green]),
            Record::Mode { values, goal } => {
                put_fields(b"MD", &MODE, values, bytes);
                goal.iter().for_each(|goal| goal.put(bytes));
            }
            Record::Grid { count, cuts } => {
                bytes.extend([b'G', b'R', *count]);
                cuts.iter().for_each(|cut| bytes.extend(cut.to_be_bytes()));
            }
            Record::Arrivals(pairs) => {
                bytes.extend(b"AR");
                let ends = pairs.iter().flatten();
                ends.for_each(|end| bytes.extend(end.to_be_bytes()));
            }
            Record::Entry(values) => put_fields(b"EN", &ENTRY, values, bytes),
            Record::End => bytes.extend(b"ZZ"),
            Record::Bytes(own) => bytes.extend(own),
        }
    }
}

fn put_fields(mark: &[u8; 2], fields: &[Field], values: &[u16], bytes: &mut Vec<u8>) {
    bytes.extend(mark);
    for (field, &value) in fields.iter().zip(values) {
        field.put(value, bytes);
    }
}
