//! Reading one line of the text form.

use super::field::{Field, CUT, ENTRY, GOAL, GOALS, HEADER, LINK, MODE, START, TURN};
use super::record::{ModeGoal, Record};
use super::words::{decimal, Words};
use crate::certificate::{is_green, Kind};

const WIDE: u64 = 65_535;

/// The records of a line: one, but for an `entry` line with ranges.
pub fn records_of_line(words: &mut Words) -> Result<Vec<Record>, String> {
    let kinds =
        "`header`, `link`, `turn`, `signal`, `mode`, `grid`, `arrivals`, `entry`, `end` or `bytes`";
    let before = words.clone();
    let records = match words.take(kinds)? {
        "header" => vec![header(words)?],
        "link" => vec![link(words)?],
        "turn" => vec![Record::Turn(named_values(words, &TURN)?)],
        "signal" => vec![Record::Signal(green_byte(words)?)],
        "mode" => vec![mode(words)?],
        "grid" => vec![grid(words)?],
        "arrivals" => vec![Record::Arrivals(arrival_pairs(words)?)],
        "entry" => entries(words)?,
        "end" => vec![Record::End],
        "bytes" => vec![Record::Bytes(words.bytes()?)],
        _ => return before.wrong(kinds),
    };
    words.must_end()?;
    Ok(records)
}

/// Kind and counts of the header, each of which may be left out.
fn header(words: &mut Words) -> Result<Record, String> {
    let mut kind = Kind::Hd;
    if words.takes("kind") {
        kind = words.parse("`H2` or `H3`", |word| {
            Kind::named(word).filter(|&kind| kind != Kind::Hd)
        })?;
    }
    let mut counts = [None; 6];
    for (count, field) in counts.iter_mut().zip(&HEADER) {
        if words.takes(field.name) {
            *count = Some(field.take(words)?);
        }
    }
    if words.peek().is_some() {
        return words.wrong(
            "`kind H2` or `kind H3`, `links`, `turns`, `signals`, `modes`, `arrivals` and `entries`, \
             each at most once and in this order",
        );
    }
    Ok(Record::Header { kind, counts })
}

/// A link, with or without its start flow.
fn link(words: &mut Words) -> Result<Record, String> {
    let values = named_values(words, &LINK)?;
    let mut start = None;
    if words.takes(START.name) {
        start = Some(START.take(words)?);
    }
    Ok(Record::Link { values, start })
}

/// A mode, with or without its goal.
fn mode(words: &mut Words) -> Result<Record, String> {
    let values = named_values(words, &MODE)?;
    let mut goal = None;
    if words.takes(GOAL.name) {
        let number = GOAL.take(words)?;
        words.must_take(GOALS.name)?;
        let goals = GOALS.take_all(words)?;
        goal = Some(ModeGoal { number, goals });
    }
    Ok(Record::Mode { values, goal })
}

/// Every field with its name, in order.
fn named_values<const N: usize>(
    words: &mut Words,
    fields: &[Field; N],
) -> Result<[u16; N], String> {
    let mut values = [0; N];
    for (place, field) in values.iter_mut().zip(fields) {
        words.must_take(field.name)?;
        *place = field.take(words)?;
    }
    Ok(values)
}

fn green_byte(words: &mut Words) -> Result<u8, String> {
    if words.takes("byte") {
        return words.byte();
    }
    if !words.takes("green") {
        return words.wrong("`green` or `byte`");
    }
    if words.takes("none") {
        return Ok(0);
    }
    let mut green = 1 << words.number("`none` or a green link", 7)?;
    while words.peek().is_some() {
        green |= 1 << words.number("a green link", 7)?;
    }
    Ok(green)
}

/// The green links of a green byte as `signal green` names them.
pub fn green_links(green: u8) -> String {
    if green == 0 {
        return "none".to_string();
    }
    let links = (0..8).filter(|&link| is_green(green, link));
    links
        .map(|link| link.to_string())
        .collect::<Vec<_>>()
        .join(" ")
}

fn grid(words: &mut Words) -> Result<Record, String> {
    if words.takes("count") {
        let count = words.number("the interval count", 255)? as u8;
        words.must_take("cuts")?;
        let cuts = CUT.take_all(words)?;
        return Ok(Record::Grid { count, cuts });
    }
    let cuts = CUT.take_all(words)?;
    match u8::try_from(cuts.len() + 1) {
        Ok(count) => Ok(Record::Grid { count, cuts }),
        Err(_) => Err(format!("expected at most 254 cuts, found {}", cuts.len())),
    }
}

fn arrival_pairs(words: &mut Words) -> Result<Vec<[u16; 2]>, String> {
    let expected = "LOW-HIGH (two numbers from 0 to 65535)";
    let pair = |word: &str| {
        let (low, high) = word.split_once('-')?;
        Some([decimal(low, WIDE)? as u16, decimal(high, WIDE)? as u16])
    };
    let mut pairs = vec![words.parse(expected, pair)?];
    while words.peek().is_some() {
        pairs.push(words.parse(expected, pair)?);
    }
    Ok(pairs)
}

/// One record for each pair of the ranges, cells outermost.
fn entries(words: &mut Words) -> Result<Vec<Record>, String> {
    let [cell, mode, signal, next, rank] = &ENTRY;
    let cells = named_range(words, cell)?;
    let modes = named_range(words, mode)?;
    let [signal, next, rank] = named_values(words, &[*signal, *next, *rank])?;
    let mut entries = Vec::new();
    for cell in cells[0]..=cells[1] {
        for mode in modes[0]..=modes[1] {
            entries.push(Record::Entry([cell, mode, signal, next, rank]));
        }
    }
    Ok(entries)
}

/// The name of a field, then `N` or `A..B` with A at most B.
fn named_range(words: &mut Words, field: &Field) -> Result<[u16; 2], String> {
    words.must_take(field.name)?;
    let most = u64::from(field.most);
    let expected = format!(
        "{} (a number from 0 to {most}, or a range A..B of them with A at most B)",
        field.name
    );
    words.parse(&expected, |word| {
        let (first, last) = word.split_once("..").unwrap_or((word, word));
        let range = [decimal(first, most)? as u16, decimal(last, most)? as u16];
        (range[0] <= range[1]).then_some(range)
    })
}
