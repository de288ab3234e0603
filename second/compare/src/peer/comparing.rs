//! Which of two certificates is better: two verdicts, the bytes before the entries, and one walk through both tables.

use super::judging::{judge_entries, read_indexed};
use crate::fast::network::{Entry, Network};
use second::{Comparison, Report};
use std::cmp::Ordering;

/// Where the first record has the entry count, which is left aside.
const COUNT: usize = 7;
const BEHIND_COUNT: usize = 9;

/// An accepted certificate.
struct Accepted<'a> {
    /// The bytes before the first EN.
    front: &'a [u8],
    records: &'a [[u8; 9]],
}

/// Compares any bytes.
pub fn compare(first: &[u8], second: &[u8]) -> Comparison {
    let mut networks = [Network::default(), Network::default()];
    match both_accepted([first, second], &mut networks) {
        Ok([first, second]) => compare_accepted(first, second),
        Err(refusal) => Comparison::Refused(refusal),
    }
}

/// Both, or the refusal of the first that is not accepted.
fn both_accepted<'a>(
    [first, second]: [&'a [u8]; 2],
    [one, other]: &'a mut [Network; 2],
) -> Result<[Accepted<'a>; 2], Report> {
    Ok([accepted(first, one)?, accepted(second, other)?])
}

fn compare_accepted(first: Accepted, second: Accepted) -> Comparison {
    if !fronts_agree(first.front, second.front) {
        return Comparison::Neither;
    }
    match cover(first.records, second.records) {
        (true, true) => Comparison::Equal,
        (true, false) => Comparison::First,
        (false, true) => Comparison::Second,
        (false, false) => Comparison::Neither,
    }
}

fn accepted<'a>(bytes: &'a [u8], network: &'a mut Network) -> Result<Accepted<'a>, Report> {
    let (read, index) = read_indexed(bytes, network)?;
    let verdict = judge_entries(&read, &index);
    if !verdict.is_accepted() {
        return Err(verdict.report);
    }
    let behind = read.records.as_flattened().len() + b"ZZ".len();
    Ok(Accepted {
        front: &bytes[..bytes.len() - behind],
        records: read.records,
    })
}

fn fronts_agree(first: &[u8], second: &[u8]) -> bool {
    first[..COUNT] == second[..COUNT] && first[BEHIND_COUNT..] == second[BEHIND_COUNT..]
}

/// Does the first table cover the second one, and the second the first? Both ascend by cell and mode.
fn cover(mut first: &[[u8; 9]], mut second: &[[u8; 9]]) -> (bool, bool) {
    let mut covers = (true, true);
    while let ([one, first_rest @ ..], [other, second_rest @ ..]) = (first, second) {
        let (one, other) = (Entry::of(one), Entry::of(other));
        match (one.cell, one.mode).cmp(&(other.cell, other.mode)) {
            Ordering::Equal => {
                covers.0 &= one.rank <= other.rank;
                covers.1 &= other.rank <= one.rank;
                (first, second) = (first_rest, second_rest);
            }
            Ordering::Less => (covers.1, first) = (false, first_rest),
            Ordering::Greater => (covers.0, second) = (false, second_rest),
        }
        if covers == (false, false) {
            return covers;
        }
    }
    (covers.0 && second.is_empty(), covers.1 && first.is_empty())
}
