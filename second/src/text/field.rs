//! The named fields of records, in the order of their bytes.

use super::words::Words;

/// A field: its name, and the greatest number that fits it.
#[derive(Clone, Copy, Debug, PartialEq, Eq)]
pub struct Field {
    pub name: &'static str,
    pub most: u16,
}

/// One byte.
const fn byte(name: &'static str) -> Field {
    Field { name, most: 255 }
}

/// Two bytes.
const fn wide(name: &'static str) -> Field {
    Field { name, most: 65_535 }
}

pub const HEADER: [Field; 6] = [
    byte("links"),
    byte("turns"),
    byte("signals"),
    byte("modes"),
    byte("arrivals"),
    wide("entries"),
];

pub const LINK: [Field; 6] = [
    byte("tail"),
    byte("head"),
    wide("cap"),
    wide("flow"),
    wide("safe"),
    wide("goal"),
];

/// A link may end with its start flow.
pub const START: Field = wide("start");

pub const TURN: [Field; 4] = [byte("from"), byte("to"), byte("share"), wide("pull")];

pub const MODE: [Field; 1] = [byte("signal")];

/// A mode may end with its goal: its number, and any number of amounts.
pub const GOAL: Field = byte("goal");
pub const GOALS: Field = wide("goals");

/// One cut of a grid, which has no name of its own.
pub const CUT: Field = wide("a cut");

pub const ENTRY: [Field; 5] = [
    wide("cell"),
    byte("mode"),
    byte("signal"),
    byte("next"),
    wide("rank"),
];

impl Field {
    /// Takes its number.
    pub fn take(&self, words: &mut Words) -> Result<u16, String> {
        Ok(words.number(self.name, self.most.into())? as u16)
    }

    /// Takes numbers to the end of the line, none of them too.
    pub fn take_all(&self, words: &mut Words) -> Result<Vec<u16>, String> {
        let mut values = Vec::new();
        while words.peek().is_some() {
            values.push(self.take(words)?);
        }
        Ok(values)
    }

    /// Adds the value's bytes, high byte first.
    pub fn put(&self, value: u16, bytes: &mut Vec<u8>) {
        if self.most > 255 {
            bytes.push((value >> 8) as u8);
        }
        bytes.push((value & 255) as u8);
    }
}
