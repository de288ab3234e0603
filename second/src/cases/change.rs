//! A stored certificate, and its changes.

use crate::certificate::Kind;
use crate::text::{
    bytes_of, records_of_line, Field, ModeGoal, Record, Words, ENTRY, GOAL, GOALS, HEADER, LINK,
    MODE, START, TURN,
};

/// A certificate as stored: records, or bytes once a change of bytes has been made.
#[derive(Clone, Debug)]
pub enum Body {
    Records(Vec<Record>),
    Bytes(Vec<u8>),
}

/// Kinds whose records are counted in `replace`, `remove` and `insert`.
const COUNTED: [&str; 7] = [
    "link", "turn", "signal", "mode", "grid", "arrivals", "entry",
];

impl Body {
    pub fn bytes(&self) -> Result<Vec<u8>, String> {
        match self {
            Body::Records(records) => bytes_of(records),
            Body::Bytes(bytes) => Ok(bytes.clone()),
        }
    }

    /// Makes the change that a line tells.
    pub fn change(&mut self, words: &mut Words) -> Result<(), String> {
        let changes = "`set`, `replace`, `remove`, `insert`, `cut`, `poke` or `append`";
        let before = words.clone();
        match words.take(changes)? {
            "set" => set(self.records()?, words)?,
            "replace" => replace(self.records()?, words)?,
            "remove" => remove(self.records()?, words)?,
            "insert" => insert(self.records()?, words)?,
            "cut" => self.change_bytes(words, cut)?,
            "poke" => self.change_bytes(words, poke)?,
            "append" => self.change_bytes(words, append)?,
            _ => return before.wrong(changes),
        }
        words.must_end()
    }

    fn records(&mut self) -> Result<&mut Vec<Record>, String> {
        match self {
            Body::Records(records) => Ok(records),
            Body::Bytes(_) => {
                Err("expected `cut`, `poke` or `append`: bytes are changed already".to_string())
            }
        }
    }

    fn change_bytes(
        &mut self,
        words: &mut Words,
        change: fn(Vec<u8>, &mut Words) -> Result<Vec<u8>, String>,
    ) -> Result<(), String> {
        *self = Body::Bytes(change(self.bytes()?, words)?);
        Ok(())
    }
}

/// Takes a kind and, but for `header` and `end`, a number; finds that record's place among all.
fn place(records: &[Record], words: &mut Words, kinds: &[&str]) -> Result<usize, String> {
    let expected = format!("one of `{}`", kinds.join("`, `"));
    let kind = words.parse(&expected, |word| {
        kinds.iter().find(|kind| **kind == word).copied()
    })?;
    let number = match kind {
        "header" | "end" => 0,
        _ => words.number(&format!("the number of a {kind}"), u64::from(u32::MAX))? as usize,
    };
    let mut places = (0..records.len()).filter(|&place| records[place].kind() == kind);
    match places.nth(number) {
        Some(place) => Ok(place),
        None => Err(format!("expected a certificate with {kind} {number}")),
    }
}

/// `set KIND I FIELD V ..`
fn set(records: &mut [Record], words: &mut Words) -> Result<(), String> {
    let place = place(records, words, &["header", "link", "turn", "mode", "entry"])?;
    match &mut records[place] {
        Record::Header { kind, counts } => set_header(words, kind, counts),
        Record::Link { values, start } => set_link(words, values, start),
        Record::Turn(values) => set_values(words, &TURN, values),
        Record::Mode { values, goal } => set_mode(words, values, goal),
        Record::Entry(values) => set_values(words, &ENTRY, values),
        _ => Err("expected a record with named fields".to_string()),
    }
}

/// Counts by their names, and the kind as `kind HD`, `kind H2` or `kind H3`.
fn set_header(
    words: &mut Words,
    kind: &mut Kind,
    counts: &mut [Option<u16>; 6],
) -> Result<(), String> {
    let names = [&["kind"][..], &names(&HEADER)].concat();
    set_named(words, &names, |words, at| {
        match at.checked_sub(1) {
            None => *kind = kind_named(words)?,
            Some(at) => counts[at] = Some(HEADER[at].take(words)?),
        }
        Ok(())
    })
}

fn kind_named(words: &mut Words) -> Result<Kind, String> {
    words.parse("`HD`, `H2` or `H3`", Kind::named)
}

/// Fields of a link; it may have no start flow yet.
fn set_link(
    words: &mut Words,
    values: &mut [u16; 6],
    start: &mut Option<u16>,
) -> Result<(), String> {
    let names = [&names(&LINK)[..], &[START.name]].concat();
    set_named(words, &names, |words, at| {
        match LINK.get(at) {
            Some(field) => values[at] = field.take(words)?,
            None => *start = Some(START.take(words)?),
        }
        Ok(())
    })
}

/// Fields of a mode; those of its goal only where it has one. Goals take the rest of the line.
fn set_mode(
    words: &mut Words,
    values: &mut [u16; 1],
    goal: &mut Option<ModeGoal>,
) -> Result<(), String> {
    let Some(ModeGoal { number, goals }) = goal else {
        return set_values(words, &MODE, values);
    };
    let names = [&names(&MODE)[..], &[GOAL.name, GOALS.name]].concat();
    set_named(words, &names, |words, at| {
        match at.checked_sub(MODE.len()) {
            None => values[at] = MODE[at].take(words)?,
            Some(0) => *number = GOAL.take(words)?,
            Some(_) => *goals = GOALS.take_all(words)?,
        }
        Ok(())
    })
}

fn set_values(words: &mut Words, fields: &[Field], values: &mut [u16]) -> Result<(), String> {
    set_named(words, &names(fields), |words, at| {
        values[at] = fields[at].take(words)?;
        Ok(())
    })
}

fn names(fields: &[Field]) -> Vec<&'static str> {
    fields.iter().map(|field| field.name).collect()
}

/// Takes names to the end of the line, each at most once; `set` takes what follows the name in this place.
fn set_named(
    words: &mut Words,
    names: &[&str],
    mut set: impl FnMut(&mut Words, usize) -> Result<(), String>,
) -> Result<(), String> {
    let expected = format!("one of `{}`, each at most once", names.join("`, `"));
    let mut seen = Vec::new();
    loop {
        let at = words.parse(&expected, |word| {
            let at = names.iter().position(|name| *name == word);
            at.filter(|at| !seen.contains(at))
        })?;
        seen.push(at);
        set(words, at)?;
        if words.peek().is_none() {
            return Ok(());
        }
    }
}

/// `replace KIND I by LINE`
fn replace(records: &mut Vec<Record>, words: &mut Words) -> Result<(), String> {
    let place = place(records, words, &COUNTED)?;
    words.must_take("by")?;
    records.splice(place..place + 1, records_of_line(words)?);
    Ok(())
}

/// `remove KIND I`, `remove end`
fn remove(records: &mut Vec<Record>, words: &mut Words) -> Result<(), String> {
    let place = place(records, words, &counted_or_end())?;
    records.remove(place);
    Ok(())
}

/// `insert KIND I LINE`, `insert end LINE`
fn insert(records: &mut Vec<Record>, words: &mut Words) -> Result<(), String> {
    let place = place(records, words, &counted_or_end())?;
    records.splice(place..place, records_of_line(words)?);
    Ok(())
}

fn counted_or_end() -> Vec<&'static str> {
    [&COUNTED[..], &["end"]].concat()
}

/// `cut N`
fn cut(mut bytes: Vec<u8>, words: &mut Words) -> Result<Vec<u8>, String> {
    let kept = words.number("how many bytes are kept", bytes.len() as u64)?;
    bytes.truncate(kept as usize);
    Ok(bytes)
}

/// `poke O HH ..`
fn poke(mut bytes: Vec<u8>, words: &mut Words) -> Result<Vec<u8>, String> {
    let offset = words.number("an offset", bytes.len() as u64)? as usize;
    let new = words.bytes()?;
    let left = bytes.len() - offset;
    if new.len() > left {
        let found = new.len();
        return Err(format!(
            "expected at most {left} bytes from offset {offset} on, found {found}"
        ));
    }
    bytes[offset..offset + new.len()].copy_from_slice(&new);
    Ok(bytes)
}

/// `append HH ..`
fn append(mut bytes: Vec<u8>, words: &mut Words) -> Result<Vec<u8>, String> {
    bytes.extend(words.bytes()?);
    Ok(bytes)
}
