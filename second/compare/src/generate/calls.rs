//! Random queries, writes and states made by hand.

use crate::numbers::Numbers;
use second::{Certificate, State};

/// Queues over a scale.
#[derive(Clone, Debug)]
pub struct Query {
    pub scale: u32,
    pub queues: Vec<u32>,
}

/// A query for a certificate: mostly one that it answers, often at an edge.
pub fn any_query(certificate: &Certificate, numbers: &mut Numbers) -> Query {
    let scale = match numbers.below(40) {
        0 => numbers.pick(&[0, 100_001, u32::MAX]),
        1 => numbers.any() as u32,
        2..=9 => numbers.between(1, 100_000) as u32,
        10..=12 => 100_000,
        13..=22 => 1,
        _ => numbers.between(2, 12) as u32,
    };
    let bold = numbers.chance(6);
    let links = certificate.links.iter().zip(&certificate.cuts);
    let mut queues: Vec<u32> = links
        .map(|(link, cuts)| any_queue(link.cap, cuts, scale, bold, numbers))
        .collect();
    match numbers.below(40) {
        0 => queues.truncate(numbers.below(queues.len() + 1)),
        1 => queues.extend((0..numbers.between(1, 5)).map(|_| numbers.any() as u32 % 8)),
        _ => (),
    }
    Query { scale, queues }
}

/// A queue at an edge or one beside it, or any; a bold one may lie above cap.
fn any_queue(cap: u16, cuts: &[u16], scale: u32, bold: bool, numbers: &mut Numbers) -> u32 {
    let most = cap.into();
    let edge = match cuts.len() {
        0 => most,
        count => cuts[numbers.below(count)].into(),
    };
    let times = |queue: u32| queue.saturating_mul(scale);
    if bold {
        return match numbers.below(4) {
            0 => times(most).saturating_add(1),
            1 => numbers.any() as u32,
            2 => u32::MAX,
            _ => times(most),
        };
    }
    match numbers.below(8) {
        0 | 1 => times(edge),
        2 | 3 => times(edge).saturating_sub(1),
        4 => times(most),
        5 => 0,
        _ => numbers.between(0, times(most).into()) as u32,
    }
}

/// Size of a lent buffer and start, around the edges of what fits a certificate of this length.
pub fn any_write(length: usize, numbers: &mut Numbers) -> (usize, usize) {
    let room = numbers.between(0, 40) as usize;
    let size = match numbers.below(8) {
        0 => numbers.below(length + 2),
        1 => length,
        2 => length.saturating_sub(1),
        3 => length + 1,
        _ => length + room,
    };
    let last = size.saturating_sub(length);
    let start = match numbers.below(10) {
        0 | 1 => 0,
        2 | 3 => last,
        4 => last + 1,
        5 => size,
        6 => size + 1,
        7 => numbers.pick(&[usize::MAX, usize::MAX - length, 1 << 32, (1 << 32) - 1]),
        _ => numbers.below(last + 2),
    };
    (size, start)
}

/// A state made by hand around the bytes of a certificate, accepted or not.
pub fn any_state(bytes: &[u8], numbers: &mut Numbers) -> State {
    let length = bytes.len();
    let mode = match numbers.below(4) {
        0 | 1 => 0,
        2 => numbers.below(9) as u8,
        _ => numbers.any() as u8,
    };
    let stored = match numbers.below(10) {
        0 => length + 1,
        1 => length.saturating_sub(1),
        2 => {
            let full = State::CAPACITY;
            numbers.pick(&[0, 1, 9, full - 1, full, full + 1])
        }
        3 => numbers.pick(&[65_536 + length, 1 << 32 | length, 1 << 63, usize::MAX]),
        _ => length,
    };
    let mut state = State::by_hand(bytes, stored, mode);
    if numbers.chance(20) {
        for byte in state.stored.iter_mut().skip(length) {
            *byte = numbers.any() as u8;
        }
    }
    state
}
