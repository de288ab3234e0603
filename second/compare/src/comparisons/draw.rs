//! Random pairs of certificates.

use super::base::base;
use super::entries::{misjudged, with_fewer, with_other_choices, with_other_policy};
use super::fronts::with_other_front;
use crate::generate::{bytes::bytes_of, damaged};
use crate::numbers::Numbers;
use crate::pairs::draw::accepted;
use crate::pairs::ranks::{crossed, reranked};
use second::certificate::{Certificate, Kind};

/// Two certificates as bytes, and how they were drawn. One of them may be of another kind, by its front or by damage.
pub struct Pair {
    pub bytes: [Vec<u8>; 2],
    pub kind: Kind,
    pub way: Way,
}

/// How the two certificates of a pair differ, if they do.
#[derive(Clone, Copy, Debug, PartialEq, Eq)]
pub enum Way {
    Same,
    Ranks,
    Fewer,
    FewerAndRanks,
    Choices,
    Policies,
    Fronts,
    Unrelated,
    Damaged,
}

impl Way {
    /// All ways, and how often each is drawn.
    pub const ALL: [(Way, u64); 9] = [
        (Way::Same, 3),
        (Way::Ranks, 15),
        (Way::Fewer, 14),
        (Way::FewerAndRanks, 13),
        (Way::Choices, 12),
        (Way::Policies, 9),
        (Way::Fronts, 16),
        (Way::Unrelated, 2),
        (Way::Damaged, 16),
    ];

    pub fn name(self) -> &'static str {
        match self {
            Way::Same => "the same",
            Way::Ranks => "other ranks",
            Way::Fewer => "entries left out",
            Way::FewerAndRanks => "entries left out and other ranks",
            Way::Choices => "other signals or next modes",
            Way::Policies => "two policies",
            Way::Fronts => "other bytes before the first EN",
            Way::Unrelated => "unrelated",
            Way::Damaged => "damaged",
        }
    }
}

impl Pair {
    /// Both are accepted unless damaged; either may stand first.
    pub fn draw(kind: Kind, numbers: &mut Numbers) -> Pair {
        let base = base(kind, numbers);
        let way = Way::ALL[numbers.weighed(&Way::ALL.map(|(_, weight)| weight))].0;
        let mut bytes = match way {
            Way::Damaged => any_damaged(&base, numbers),
            way => both(way, base, numbers).map(|certificate| bytes_of(&certificate)),
        };
        if numbers.chance(50) {
            bytes.reverse();
        }
        Pair { bytes, kind, way }
    }
}

/// Two accepted certificates.
fn both(way: Way, base: Certificate, numbers: &mut Numbers) -> [Certificate; 2] {
    match way {
        Way::Same | Way::Damaged => [base.clone(), base],
        Way::Ranks => other_ranks(base, numbers),
        Way::Fewer => {
            let other = with_fewer(&base, numbers);
            match numbers.chance(50) {
                true => [base, other],
                false => [with_fewer(&base, numbers), other],
            }
        }
        Way::FewerAndRanks => {
            let both = other_ranks(base, numbers);
            match numbers.chance(50) {
                true => both.each_ref().map(|one| with_fewer(one, numbers)),
                false => [with_fewer(&both[0], numbers), both[1].clone()],
            }
        }
        Way::Choices => {
            let other = with_other_choices(&base, numbers);
            match numbers.chance(80) {
                true => [base, other],
                false => [base, reranked(&other, numbers)],
            }
        }
        Way::Policies => match with_other_policy(&base, numbers) {
            Some(other) => [base, other],
            None => other_ranks(base, numbers),
        },
        Way::Fronts => other_fronts(base, numbers),
        Way::Unrelated => {
            let other = accepted(base.kind, numbers);
            [base, other]
        }
    }
}

/// Other ranks in the second or in both.
fn other_ranks(base: Certificate, numbers: &mut Numbers) -> [Certificate; 2] {
    match numbers.below(4) {
        0 => {
            let other = reranked(&base, numbers);
            [base, other]
        }
        1 => [reranked(&base, numbers), reranked(&base, numbers)],
        _ => crossed(&base, numbers),
    }
}

/// Another front, with the same entries or not.
fn other_fronts(base: Certificate, numbers: &mut Numbers) -> [Certificate; 2] {
    let Some(other) = with_other_front(&base, numbers) else {
        return other_ranks(base, numbers);
    };
    let other = match numbers.below(10) {
        0 => reranked(&other, numbers),
        1 => with_fewer(&other, numbers),
        2 => with_other_choices(&other, numbers),
        _ => other,
    };
    [base, other]
}

/// One or both damaged, which may leave them accepted.
fn any_damaged(base: &Certificate, numbers: &mut Numbers) -> [Vec<u8>; 2] {
    let first = one_damaged(base, numbers);
    let second = match numbers.below(5) {
        0 | 1 => one_damaged(base, numbers),
        2 => bytes_of(&reranked(base, numbers)),
        3 => bytes_of(&with_fewer(base, numbers)),
        _ => bytes_of(base),
    };
    [first, second]
}

/// A damaged copy; now and then no bytes at all.
fn one_damaged(base: &Certificate, numbers: &mut Numbers) -> Vec<u8> {
    match numbers.below(50) {
        0 => Vec::new(),
        1..=20 => bytes_of(&misjudged(base, numbers)),
        _ => damaged(base, numbers),
    }
}
