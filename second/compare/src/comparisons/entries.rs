//! Other tables for the network of an accepted certificate, all of them accepted.

use super::base::is_accepted;
use crate::fast::judge;
use crate::generate::{bytes::bytes_of, find_policy};
use crate::numbers::Numbers;
use second::certificate::{Certificate, Entry, Kind};

/// Tries until entries can be left out, and entries that are tried for another signal or next mode.
const TRIES: usize = 4;
const CHOICES: usize = 12;
/// Most entries that are left out because of another one.
const FOLLOWING: usize = 300;

/// Some entries are left out, and all that lead to them; none where nothing would be left.
pub fn with_fewer(certificate: &Certificate, numbers: &mut Numbers) -> Certificate {
    let count = certificate.entries.len();
    for _ in 0..TRIES {
        let mut copy = certificate.clone();
        let few = 1 + numbers.below(3);
        let any = 1 + numbers.below(count);
        // Enough for another high byte of the entry count, if there is one.
        let many = 1 + count % 256;
        for _ in 0..numbers.pick(&[1, few, few, any, many]).min(count - 1) {
            copy.entries.remove(numbers.below(copy.entries.len()));
        }
        if leave_out(&mut copy) {
            return copy;
        }
    }
    certificate.clone()
}

/// Leaves out entries with a successor that is not listed, until there is none; tells whether that came to an end with
/// an accepted certificate.
fn leave_out(copy: &mut Certificate) -> bool {
    for _ in 0..FOLLOWING {
        if copy.entries.is_empty() {
            return false;
        }
        let report = judge(&bytes_of(copy)).report;
        match report.number {
            0 => return true,
            14 => drop(copy.entries.remove(report.a as usize)),
            _ => return false,
        }
    }
    false
}

/// Other signals or next modes in some entries, now and then in none.
pub fn with_other_choices(certificate: &Certificate, numbers: &mut Numbers) -> Certificate {
    let mut copy = certificate.clone();
    let mut left = numbers.pick(&[1, 1, 3, CHOICES]);
    for _ in 0..CHOICES {
        let at = numbers.below(copy.entries.len());
        let old = copy.entries[at].clone();
        copy.entries[at] = other_choice(&copy, &old, numbers);
        if copy.entries[at] == old {
            continue;
        }
        if !is_accepted(&copy) {
            copy.entries[at] = old;
            continue;
        }
        left -= 1;
        if left == 0 {
            break;
        }
    }
    copy
}

/// The entry with another signal, next mode or both. But in an HD certificate the next mode remembers the signal.
fn other_choice(certificate: &Certificate, entry: &Entry, numbers: &mut Numbers) -> Entry {
    let mut other = entry.clone();
    let next = numbers.below(certificate.modes.into()) as u8;
    let signal = numbers.below(certificate.signals.len()) as u8;
    match (certificate.kind, numbers.below(3)) {
        (Kind::Hd, 0) => other.signal = signal,
        (Kind::Hd, 1) => other.next = next,
        (Kind::Hd, _) => (other.signal, other.next) = (signal, next),
        _ => {
            other.next = next;
            other.signal = certificate.memory[usize::from(next)];
        }
    }
    other
}

/// The table of another office: a policy of its own for the same network, grid, arrivals and modes.
pub fn with_other_policy(certificate: &Certificate, numbers: &mut Numbers) -> Option<Certificate> {
    let mut copy = certificate.clone();
    let whole = numbers.chance(60);
    find_policy(&mut copy, numbers, certificate.modes.into(), whole)?;
    is_accepted(&copy).then_some(copy)
}

/// Another rank, an entry less or a lower safe, which judging mostly refuses: 12 to 15.
pub fn misjudged(certificate: &Certificate, numbers: &mut Numbers) -> Certificate {
    let mut copy = certificate.clone();
    let at = numbers.below(copy.entries.len());
    let link = numbers.below(copy.links.len());
    match numbers.below(4) {
        0 if copy.entries.len() > 1 => drop(copy.entries.remove(at)),
        1 => {
            let link = &mut copy.links[link];
            link.safe = numbers.wide(link.goal, link.safe);
        }
        _ => copy.entries[at].rank = numbers.pick(&copy.entries).rank,
    }
    copy
}
