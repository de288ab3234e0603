//! Accepted H3 certificates of known size.

use super::h2::{large, longest_certificate, with_policy, EIGHT_MODES};
use super::{arrivals, link, typical_roads};
use crate::generate::bytes::bytes_of;
use second::certificate::{Certificate, Goal, Kind};

fn goal(number: u8, amounts: &[u16]) -> Goal {
    Goal {
        number,
        amounts: amounts.to_vec(),
    }
}

/// L with start flow 3, a red signal, and a short and a longer queue in turn. The link's own goal is 0.
pub fn listed() -> Vec<u8> {
    with_policy(Certificate {
        kind: Kind::H3,
        links: vec![link(0, 1, 10, 6, 0)],
        turns: Vec::new(),
        signals: vec![1, 0],
        modes: 3,
        memory: vec![0, 0, 1],
        goals: vec![goal(0, &[5]), goal(1, &[8]), goal(1, &[8])],
        cuts: vec![vec![5, 8]],
        arrivals: vec![arrivals(&[(0, 2)])],
        entries: Vec::new(),
    })
}

/// The links, grid and arrivals of the typical HD certificate: first one link in is to be short, then the other. Each
/// goal has a mode for each of three signals: 3,750 pairs of cell and mode.
pub fn typical() -> Vec<u8> {
    let goals = [goal(0, &[16, 40, 30, 30]), goal(1, &[40, 16, 30, 30])];
    with_policy(Certificate {
        kind: Kind::H3,
        modes: 6,
        memory: vec![0, 1, 3, 0, 1, 3],
        goals: (0..6).map(|mode| goals[mode / 3].clone()).collect(),
        ..typical_roads()
    })
}

/// As the largest H2 certificate, with four goals of two modes each. Every mode leads to both modes of the next goal.
pub fn largest() -> Vec<u8> {
    let next = |cell: u16, mode: u16| (mode + 1) % 4 + 4 * ((cell + mode / 4) % 2);
    let largest = large(EIGHT_MODES, |pair| {
        let (cell, mode) = (pair / 8, pair % 8);
        (cell, mode, next(cell, mode))
    });
    with_goals(largest, |mode| mode % 4)
}

/// As long as a certificate can be: the longest H2 certificate with one goal in each mode.
pub fn longest() -> Vec<u8> {
    with_goals(longest_certificate(), |_| 0)
}

/// An H2 certificate with goals that hold every cell; the mode tells the number.
fn with_goals(mut certificate: Certificate, number: fn(u8) -> u8) -> Vec<u8> {
    certificate.kind = Kind::H3;
    let amounts: Vec<u16> = certificate.links.iter().map(|link| link.cap).collect();
    let goals = (0..certificate.modes).map(|mode| goal(number(mode), &amounts));
    certificate.goals = goals.collect();
    bytes_of(&certificate)
}
