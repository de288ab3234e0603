//! Accepted certificates of known size.

pub mod h2;
pub mod h3;

use crate::generate::{bytes::bytes_of, find_policy};
use crate::numbers::Numbers;
use second::certificate::{Arrival, Certificate, Entry, Kind, Link, Turn};

/// Document 01's L.
pub fn listed() -> Vec<u8> {
    let entry = |cell: u16| Entry {
        cell,
        mode: 0,
        signal: 0,
        next: 0,
        rank: cell,
    };
    bytes_of(&Certificate {
        kind: Kind::Hd,
        links: vec![link(0, 1, 10, 6, 5)],
        turns: Vec::new(),
        signals: vec![1],
        modes: 1,
        memory: Vec::new(),
        goals: Vec::new(),
        cuts: vec![vec![5, 8]],
        arrivals: vec![arrivals(&[(0, 2)])],
        entries: (0..3).map(entry).collect(),
    })
}

/// A link that is safe up to its cap.
fn link(tail: u8, head: u8, cap: u16, flow: u16, goal: u16) -> Link {
    Link {
        tail,
        head,
        cap,
        flow,
        safe: cap,
        goal,
        start: None,
    }
}

fn arrivals(pairs: &[(u16, u16)]) -> Vec<Arrival> {
    let arrival = |&(low, high): &(u16, u16)| Arrival { low, high };
    pairs.iter().map(arrival).collect()
}

/// Two links in, two out of one junction, two phases beside all green: 625 cells, ranks up to some steps.
pub fn typical() -> Vec<u8> {
    let mut certificate = typical_roads();
    find_policy(&mut certificate, &mut Numbers::of(1, 1), 1, true);
    bytes_of(&certificate)
}

/// The same without entries.
fn typical_roads() -> Certificate {
    let turn = |from, to| Turn {
        from,
        to,
        share: 40,
        pull: 80,
    };
    Certificate {
        kind: Kind::Hd,
        links: vec![
            link(0, 1, 40, 16, 16),
            link(0, 1, 40, 16, 16),
            link(1, 2, 50, 20, 30),
            link(1, 3, 50, 20, 30),
        ],
        turns: vec![turn(0, 2), turn(0, 3), turn(1, 2), turn(1, 3)],
        signals: vec![0b1101, 0b1110, 0b1100, 0b1111],
        modes: 1,
        memory: Vec::new(),
        goals: Vec::new(),
        cuts: vec![
            vec![8, 16, 24, 32],
            vec![8, 16, 24, 32],
            vec![10, 20, 30, 40],
            vec![10, 20, 30, 40],
        ],
        arrivals: vec![
            arrivals(&[(0, 3), (0, 1), (0, 0), (0, 1)]),
            arrivals(&[(0, 1), (1, 3), (0, 0), (0, 0)]),
        ],
        entries: Vec::new(),
    }
}

/// Links both ways between two junctions with every turn, 4 × 4 × 4 × 4 × 2 × 2 × 2 × 2 cells, all of them goal.
pub fn largest() -> Vec<u8> {
    bytes_of(&Certificate {
        cuts: (0..8).map(|l| cuts(if l < 4 { 4 } else { 2 })).collect(),
        entries: (0..4_096)
            .map(|cell| entry_of(cell, (cell % 16) as u8))
            .collect(),
        ..largest_roads()
    })
}

/// The same without grid and entries.
fn largest_roads() -> Certificate {
    let ends = |link| if link < 4 { (1, 2) } else { (2, 1) };
    let turn = |number: usize| Turn {
        from: number / 4,
        to: (number / 4 < 4) as usize * 4 + number % 4,
        share: 25,
        pull: 100,
    };
    let row = |number: u16| -> Vec<(u16, u16)> {
        (0..8)
            .map(|link| ((number + link) % 2, 1 + (number + link) % 3))
            .collect()
    };
    Certificate {
        kind: Kind::Hd,
        links: (0..8)
            .map(|l| link(ends(l).0, ends(l).1, 20, 10, 20))
            .collect(),
        turns: (0..32).map(turn).collect(),
        signals: (0..16).map(|signal: u8| signal.wrapping_mul(17)).collect(),
        modes: 1,
        memory: Vec::new(),
        goals: Vec::new(),
        cuts: Vec::new(),
        arrivals: (0..8).map(|number| arrivals(&row(number))).collect(),
        entries: Vec::new(),
    }
}

/// Cuts of a link of cap 20 for 1, 2 or 4 even intervals, and for 15.
fn cuts(intervals: u16) -> Vec<u16> {
    match intervals {
        15 => (1..15).collect(),
        count => (1..count).map(|cut| cut * 20 / count).collect(),
    }
}

/// Every cell follows every cell under each of eight boxes: 134,217,728 successors.
pub fn worst() -> Vec<u8> {
    bytes_of(&Certificate {
        kind: Kind::Hd,
        links: vec![link(0, 1, 20, 20, 20); 8],
        turns: Vec::new(),
        signals: vec![0xFF],
        modes: 1,
        memory: Vec::new(),
        goals: Vec::new(),
        cuts: (0..8).map(|l| cuts(if l < 4 { 4 } else { 2 })).collect(),
        arrivals: vec![arrivals(&[(0, 10_000); 8]); 8],
        entries: (0..4_096).map(|cell| entry_of(cell, 0)).collect(),
    })
}

fn entry_of(cell: u16, signal: u8) -> Entry {
    Entry {
        cell,
        mode: 0,
        signal,
        next: 0,
        rank: 0,
    }
}
