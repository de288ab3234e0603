//! Damaged copies of certificates.

mod goals;
mod kind;
mod starts;

use super::bytes::bytes_of;
use super::entries::{spoil, Way};
use crate::numbers::Numbers;
use second::certificate::{Arrival, Certificate, Kind};

/// The bytes of a copy with one or more changes. It may still be accepted.
pub fn damaged(certificate: &Certificate, numbers: &mut Numbers) -> Vec<u8> {
    let mut copy = certificate.clone();
    if numbers.chance(30) {
        let mut bytes = bytes_of(&copy);
        if copy.kind.has_starts() && numbers.chance(30) {
            starts::change_record(&mut bytes, &copy, numbers);
            return bytes;
        }
        for _ in 0..numbers.pick(&[1, 1, 1, 2, 5]) {
            change_bytes(&mut bytes, numbers);
        }
        return bytes;
    }
    for _ in 0..numbers.pick(&[1, 1, 1, 2]) {
        match (copy.kind, numbers.between(1, 100)) {
            (_, 1..=3) => kind::change(&mut copy, numbers),
            (Kind::H2, 4..=25) | (Kind::H3, 4..=15) => starts::change(&mut copy, numbers),
            (Kind::H3, 16..=45) => goals::change(&mut copy, numbers),
            _ => change(&mut copy, numbers),
        }
    }
    bytes_of(&copy)
}

/// One change that there is in certificates of each kind.
fn change(copy: &mut Certificate, numbers: &mut Numbers) {
    match numbers.below(18) {
        0..=4 => change_entry(copy, numbers),
        5..=7 => change_arrivals(copy, numbers),
        8 => change_grid(copy, numbers),
        9 | 10 => change_link(copy, numbers),
        11 | 12 if copy.turns.is_empty() => change_signal(copy, numbers),
        11..=13 if !copy.turns.is_empty() => change_turn(copy, numbers),
        13 => change_limit(copy, numbers),
        14 => change_rank(copy, numbers),
        15 => change_signal(copy, numbers),
        _ => {
            let way = numbers.pick(&Way::all(copy));
            spoil(copy, way, numbers);
        }
    }
}

/// Any other value for a number, often a near one.
fn moved(numbers: &mut Numbers, value: u16) -> u16 {
    match numbers.below(8) {
        0..=2 => value.wrapping_add(1),
        3..=5 => value.wrapping_sub(1),
        6 => numbers.pick(&[0, 1, 10_000, 10_001, u16::MAX]),
        _ => numbers.any() as u16,
    }
}

fn change_bytes(bytes: &mut Vec<u8>, numbers: &mut Numbers) {
    let entries = bytes
        .windows(4)
        .position(|four| four.starts_with(b"EN\0\0"));
    let reach = match entries {
        Some(entries) if numbers.chance(60) => entries,
        _ => bytes.len(),
    };
    if reach == 0 {
        return;
    }
    let at = numbers.below(reach);
    match numbers.below(10) {
        0 => bytes.truncate(at),
        1 => bytes.truncate(bytes.len() - numbers.between(0, 12).min(bytes.len() as u64) as usize),
        2 => bytes.extend((0..numbers.between(1, 9)).map(|_| numbers.any() as u8)),
        3 => drop(bytes.remove(at)),
        4 => bytes.insert(at, numbers.any() as u8),
        5 => bytes[at] = numbers.any() as u8,
        6 => bytes[at] = numbers.pick(&[0, 255]),
        7 => bytes[at] = bytes[at].wrapping_add(1),
        8 => bytes[at] = bytes[at].wrapping_sub(1),
        _ => bytes[at] ^= 1 << numbers.below(8),
    }
}

fn change_entry(copy: &mut Certificate, numbers: &mut Numbers) {
    let Some(last) = copy.entries.len().checked_sub(1) else {
        return;
    };
    let at = numbers.below(last + 1);
    let least = copy.entries[0].rank;
    let entry = &mut copy.entries[at];
    match numbers.below(10) {
        0 => entry.rank = moved(numbers, entry.rank),
        1 => entry.rank = entry.rank.saturating_sub(1).max(least),
        2 => entry.rank = numbers.pick(&[0, 1, 2, u16::MAX]),
        3 => entry.signal = numbers.below(copy.signals.len() + 1) as u8,
        4 => entry.next = numbers.below(usize::from(copy.modes) + 1) as u8,
        5 => entry.cell = moved(numbers, entry.cell),
        6 => entry.mode = numbers.below(usize::from(copy.modes) + 1) as u8,
        7 if last > 0 => copy.entries.swap(at, numbers.below(last + 1)),
        8 => copy.entries.insert(at, copy.entries[at].clone()),
        _ if last > 0 => drop(copy.entries.remove(at)),
        _ => entry.rank = entry.rank.wrapping_add(1),
    }
}

fn change_arrivals(copy: &mut Certificate, numbers: &mut Numbers) {
    let at = numbers.below(copy.arrivals.len());
    let link = numbers.below(copy.links.len());
    let Arrival { low, high } = &mut copy.arrivals[at][link];
    match numbers.below(4) {
        0 => *low = moved(numbers, *low),
        1 => *high = moved(numbers, *high),
        2 => *high = high.saturating_add(numbers.wide(1, 9)),
        _ => *low = numbers.wide(0, *high),
    }
}

fn change_grid(copy: &mut Certificate, numbers: &mut Numbers) {
    let link = numbers.below(copy.links.len());
    let cap = copy.links[link].cap;
    let cuts = &mut copy.cuts[link];
    match (cuts.len(), numbers.below(4)) {
        (0, _) | (_, 0) => cuts.push(numbers.wide(0, cap)),
        (count, 1) => drop(cuts.remove(numbers.below(count))),
        (count, _) => {
            let at = numbers.below(count);
            cuts[at] = moved(numbers, cuts[at]);
        }
    }
}

fn change_link(copy: &mut Certificate, numbers: &mut Numbers) {
    let at = numbers.below(copy.links.len());
    let tails: Vec<u8> = copy.links.iter().map(|link| link.tail).collect();
    let junction = numbers.any() as u8;
    let link = &mut copy.links[at];
    match numbers.below(9) {
        0 => link.tail = numbers.pick(&[0, link.head, junction]),
        1 => link.head = numbers.pick(&tails),
        2 => link.cap = moved(numbers, link.cap),
        3 => link.flow = moved(numbers, link.flow),
        4 => link.flow = numbers.wide(1, link.cap),
        5 => link.safe = moved(numbers, link.safe),
        6 => link.safe = numbers.wide(link.goal, link.cap),
        7 => link.goal = moved(numbers, link.goal),
        _ => link.goal = numbers.wide(0, link.safe),
    }
}

fn change_signal(copy: &mut Certificate, numbers: &mut Numbers) {
    let at = numbers.below(copy.signals.len());
    let reach = numbers.pick(&[copy.links.len(), copy.links.len(), 8]);
    copy.signals[at] ^= 1 << numbers.below(reach);
}

fn change_turn(copy: &mut Certificate, numbers: &mut Numbers) {
    let at = numbers.below(copy.turns.len());
    let turn = &mut copy.turns[at];
    match numbers.below(12) {
        0 => turn.pull = moved(numbers, turn.pull),
        1..=3 => turn.pull = turn.pull.wrapping_sub(numbers.pick(&[1, 2, 10])),
        4..=6 => turn.pull = turn.pull.saturating_mul(numbers.pick(&[2, 3, 10])),
        7 => turn.share = moved(numbers, turn.share.into()) as u8,
        8 => turn.share = numbers.pick(&[1, 100, 101]),
        9 => turn.from = numbers.below(copy.links.len() + 1),
        10 => turn.to = numbers.below(copy.links.len() + 1),
        _ if numbers.chance(50) => copy.turns.insert(at, copy.turns[at].clone()),
        _ => drop(copy.turns.remove(at)),
    }
}

/// A lower safe, with goal as far as it must be.
fn change_limit(copy: &mut Certificate, numbers: &mut Numbers) {
    let at = numbers.below(copy.links.len());
    let link = &mut copy.links[at];
    link.safe = match numbers.below(2) {
        0 => link.safe.saturating_sub(1),
        _ => numbers.wide(0, link.safe),
    };
    link.goal = link.goal.min(link.safe);
}

/// A rank as high as or just above that of another entry, but not 0 or above 0 anew.
fn change_rank(copy: &mut Certificate, numbers: &mut Numbers) {
    let ranks: Vec<u16> = copy.entries.iter().map(|entry| entry.rank).collect();
    let ranked: Vec<usize> = (0..ranks.len()).filter(|&at| ranks[at] > 0).collect();
    if !ranked.is_empty() {
        let other = numbers.pick(&ranked);
        let more = numbers.wide(0, 1);
        copy.entries[numbers.pick(&ranked)].rank = ranks[other].saturating_add(more);
    }
}
