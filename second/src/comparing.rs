//! Which of two certificates is better: the covering of document 02, 8/14.

use crate::certificate::Certificate;
use crate::conditions::read_sound;
use crate::judging::judge_entries;
use crate::report::Report;
use std::collections::BTreeMap;
use std::fmt;

/// Where the two bytes of the entry count stand in the first record.
const COUNT: [usize; 2] = [7, 9];
/// Bytes of an EN, and of ZZ.
const ENTRY: usize = 9;
const END: usize = 2;

/// What is said of two certificates.
#[derive(Clone, Copy, Debug, PartialEq, Eq)]
pub enum Comparison {
    /// Each covers the other.
    Equal,
    /// Only the first covers the other.
    First,
    /// Only the second covers the other.
    Second,
    Neither,
    /// The refusal of the first one that is not accepted.
    Refused(Report),
}

impl Comparison {
    /// The words of all answers, that of a refusal last.
    pub const WORDS: [&'static str; 5] = ["equal", "first", "second", "neither", "refused"];

    pub fn word(self) -> &'static str {
        match self {
            Comparison::Equal => "equal",
            Comparison::First => "first",
            Comparison::Second => "second",
            Comparison::Neither => "neither",
            Comparison::Refused(_) => "refused",
        }
    }

    /// Success without places or count, or the refusal.
    pub fn report(self) -> Report {
        match self {
            Comparison::Refused(refusal) => refusal,
            _ => Report::SUCCESS,
        }
    }
}

impl fmt::Display for Comparison {
    fn fmt(&self, out: &mut fmt::Formatter<'_>) -> fmt::Result {
        write!(out, "{} {}", self.report(), self.word())
    }
}

/// Compares two certificates, given as bytes.
pub fn compare(first: &[u8], second: &[u8]) -> Comparison {
    compare_tables(&Table::of(first), &Table::of(second))
}

/// The same for certificates that have been judged already.
pub fn compare_tables(first: &Result<Table, Report>, second: &Result<Table, Report>) -> Comparison {
    match (first, second) {
        (Err(refusal), _) | (Ok(_), Err(refusal)) => Comparison::Refused(*refusal),
        (Ok(first), Ok(second)) => match (first.covers(second), second.covers(first)) {
            (true, true) => Comparison::Equal,
            (true, false) => Comparison::First,
            (false, true) => Comparison::Second,
            (false, false) => Comparison::Neither,
        },
    }
}

/// All that counts of an accepted certificate.
#[derive(Clone, Debug, PartialEq, Eq)]
pub struct Table {
    /// The bytes before the first EN, without those of the entry count.
    pub front: Vec<u8>,
    /// The rank of each listed pair of cell and mode.
    pub ranks: BTreeMap<(u16, u8), u16>,
}

impl Table {
    /// The table of a certificate, or its refusal.
    pub fn of(bytes: &[u8]) -> Result<Table, Report> {
        let certificate = read_sound(bytes)?;
        let verdict = judge_entries(&certificate);
        if !verdict.is_accepted() {
            return Err(verdict.report);
        }
        Ok(Table {
            front: front(bytes, certificate.entries.len()),
            ranks: ranks(&certificate),
        })
    }

    /// All bytes before the first EN agree, and every pair of the other is listed here with a rank no higher.
    pub fn covers(&self, other: &Table) -> bool {
        let mut pairs = other.ranks.iter();
        self.front == other.front
            && pairs.all(|(pair, rank)| self.ranks.get(pair).is_some_and(|own| own <= rank))
    }
}

/// The bytes before the first of so many entries, which stand right before ZZ; the entry count is left out.
fn front(bytes: &[u8], entries: usize) -> Vec<u8> {
    let first = bytes.len() - END - ENTRY * entries;
    let [count, behind] = COUNT;
    [&bytes[..count], &bytes[behind..first]].concat()
}

fn ranks(certificate: &Certificate) -> BTreeMap<(u16, u8), u16> {
    let entries = certificate.entries.iter();
    entries
        .map(|entry| ((entry.cell, entry.mode), entry.rank))
        .collect()
}
