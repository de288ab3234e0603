//! Accepted H2 certificates of known size.

use super::{arrivals, cuts, largest_roads, link, typical_roads};
use crate::generate::{bytes::bytes_of, find_policy};
use crate::numbers::Numbers;
use second::certificate::{Certificate, Entry, Kind};

/// L with start flow 3, and a red signal: a mode after green and one after red.
pub fn listed() -> Vec<u8> {
    with_policy(Certificate {
        kind: Kind::H2,
        links: vec![link(0, 1, 10, 6, 5)],
        turns: Vec::new(),
        signals: vec![1, 0],
        modes: 2,
        memory: vec![0, 1],
        goals: Vec::new(),
        cuts: vec![vec![5, 8]],
        arrivals: vec![arrivals(&[(0, 2)])],
        entries: Vec::new(),
    })
}

/// The links, grid and arrivals of the typical HD certificate, with a mode a signal: 2,500 pairs of cell and mode.
pub fn typical() -> Vec<u8> {
    with_policy(Certificate {
        kind: Kind::H2,
        modes: 4,
        memory: (0..4).collect(),
        ..typical_roads()
    })
}

/// Start flows of half the flows, and a policy for every pair that can be listed.
pub(super) fn with_policy(mut certificate: Certificate) -> Vec<u8> {
    for link in &mut certificate.links {
        link.start = Some(link.flow / 2);
    }
    let modes = certificate.memory.len();
    find_policy(&mut certificate, &mut Numbers::of(1, 1), modes, true);
    bytes_of(&certificate)
}

/// The links, turns, signals and arrivals of the largest HD certificate, 4 × 2 × 2 × 2 × 2 × 2 × 2 × 2 cells with 8
/// modes each, all of them goal. Every mode leads to every mode.
pub fn largest() -> Vec<u8> {
    bytes_of(&large(EIGHT_MODES, |pair| {
        (pair / 8, pair % 8, (pair / 8 + pair) % 8)
    }))
}

/// Intervals of each link with which 4,096 entries have every cell in each of eight modes.
pub(super) const EIGHT_MODES: fn(u16) -> u16 = |link| if link == 0 { 4 } else { 2 };

/// As long as a certificate can be: three links of 15 intervals. Every cell has mode 0, and the first ones mode 1.
pub fn longest() -> Vec<u8> {
    bytes_of(&longest_certificate())
}

/// The same before it is bytes.
pub(super) fn longest_certificate() -> Certificate {
    let first = 4_096 - 15 * 15 * 15;
    large(
        |link| if link < 3 { 15 } else { 1 },
        |pair| match pair < 2 * first {
            true => (pair / 2, pair % 2, 0),
            false => (pair - first, 0, 0),
        },
    )
}

/// 4,096 entries, given by cell, mode and next mode, on so many intervals a link.
pub(super) fn large(
    intervals: fn(u16) -> u16,
    pair: impl Fn(u16) -> (u16, u16, u16),
) -> Certificate {
    let memory: Vec<u8> = (0..8).map(|mode| 2 * mode + 1).collect();
    let entry = |number: u16| {
        let (cell, mode, next) = pair(number);
        Entry {
            cell,
            mode: mode as u8,
            signal: memory[usize::from(next)],
            next: next as u8,
            rank: 0,
        }
    };
    let mut certificate = Certificate {
        kind: Kind::H2,
        modes: 8,
        cuts: (0..8).map(|link| cuts(intervals(link))).collect(),
        entries: (0..4_096).map(entry).collect(),
        memory: memory.clone(),
        ..largest_roads()
    };
    for (number, link) in certificate.links.iter_mut().enumerate() {
        link.start = Some(1 + number as u16);
    }
    certificate
}
