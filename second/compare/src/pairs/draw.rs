//! Random pairs of certificates that differ in ranks alone, and the states that load them.

use super::ranks::reranked;
use crate::fast::judge;
use crate::generate::{any_state, bytes::bytes_of, certificate, Size};
use crate::numbers::Numbers;
use second::certificate::{Certificate, Kind};
use second::State;

/// One of so many certificates may be large.
const LARGE: usize = 400;
/// Bytes of an EN, of those the ones before the rank, and bytes of ZZ.
const ENTRY: usize = 9;
const NAMES: usize = 7;
const END: usize = 2;

/// Two accepted certificates as bytes.
pub struct Pair {
    /// What the first of them holds.
    pub certificate: Certificate,
    pub bytes: [Vec<u8>; 2],
    pub changed: Changed,
}

/// In how many entries a pair differs, and in how many of them in the high byte of the rank.
#[derive(Clone, Copy, Debug, Default, PartialEq, Eq)]
pub struct Changed {
    pub entries: usize,
    pub high: usize,
}

impl Changed {
    /// Compares all bytes; none if others than those of ranks differ.
    pub fn of(one: &[u8], other: &[u8]) -> Option<Changed> {
        let count = usize::from(u16::from_be_bytes([*one.get(7)?, *one.get(8)?]));
        let first = one.len().checked_sub(count * ENTRY + END)?;
        if one.len() != other.len() || one[..first] != other[..first] {
            return None;
        }
        let mut changed = Changed::default();
        let records = one[first..].chunks(ENTRY);
        for (own, new) in records.zip(other[first..].chunks(ENTRY)) {
            let names = own.len().min(NAMES);
            if own[..names] != new[..names] {
                return None;
            }
            changed.entries += usize::from(own != new);
            changed.high += usize::from(own.get(NAMES) != new.get(NAMES));
        }
        Some(changed)
    }
}

impl Pair {
    /// Both certificates are accepted, by the checker made for speed.
    pub fn draw(kind: Kind, numbers: &mut Numbers) -> Pair {
        let certificate = accepted(kind, numbers);
        let other = reranked(&certificate, numbers);
        let bytes = [bytes_of(&certificate), bytes_of(&other)];
        let changed = Changed::of(&bytes[0], &bytes[1]).expect("ranks alone differ");
        assert!(judge(&bytes[1]).is_accepted(), "other ranks are refused");
        Pair {
            certificate,
            bytes,
            changed,
        }
    }
}

/// An accepted certificate. Few have no rank above 0: no other rank would do there.
pub(crate) fn accepted(kind: Kind, numbers: &mut Numbers) -> Certificate {
    loop {
        let size = match numbers.below(LARGE) {
            0 => Size::Large,
            _ => Size::Small,
        };
        let drawn = certificate(numbers, size, kind);
        let has_ranks = drawn.entries.iter().any(|entry| entry.rank > 0);
        let is_wanted = has_ranks || numbers.chance(5);
        if is_wanted && judge(&bytes_of(&drawn)).is_accepted() {
            return drawn;
        }
    }
}

/// The state before a load, on which nothing is to depend: fresh, holding another certificate or one of the pair in
/// some mode, or made by hand.
pub fn state_before(pair: &Pair, numbers: &mut Numbers) -> State {
    let own = numbers.pick(&pair.bytes);
    match numbers.below(5) {
        0 => State::fresh(),
        1 => {
            let kind = numbers.pick(&Kind::ALL);
            let bytes = bytes_of(&certificate(numbers, Size::Small, kind));
            State::by_hand(&bytes, bytes.len(), numbers.below(8) as u8)
        }
        2 => State::by_hand(&own, own.len(), numbers.below(8) as u8),
        3 => any_state(&own, numbers),
        _ => any_bytes(numbers),
    }
}

/// A state of any bytes, length and mode.
fn any_bytes(numbers: &mut Numbers) -> State {
    let mut stored = [0; State::CAPACITY];
    for part in stored.chunks_mut(8) {
        part.copy_from_slice(&numbers.any().to_be_bytes()[..part.len()]);
    }
    let any = numbers.any() as usize;
    let full = State::CAPACITY;
    let length = numbers.pick(&[0, 9, 1_000, full - 1, full, full + 1, any]);
    let mode = numbers.any() as u8;
    State {
        stored,
        length,
        mode,
    }
}
