//! The rule of a comparison once more, by its parts; a slip is in one of them.

use compare::generate::bytes::{links_place, modes_place};
use second::certificate::{Certificate, Entry};
use second::conditions::read_sound;
use second::{judge, Comparison, Report};
use std::ops::Range;

/// One of two certificates: its bytes, its refusal, and what it holds if it passes every test before 12.
pub struct Side {
    pub bytes: Vec<u8>,
    pub refusal: Option<Report>,
    pub certificate: Option<Certificate>,
}

impl Side {
    pub fn of(bytes: &[u8]) -> Side {
        let verdict = judge(bytes);
        Side {
            bytes: bytes.to_vec(),
            refusal: (!verdict.is_accepted()).then_some(verdict.report),
            certificate: read_sound(bytes).ok(),
        }
    }

    fn held(&self) -> Option<Held<'_>> {
        let certificate = self.certificate.as_ref()?;
        let bytes = &self.bytes;
        Some(Held { certificate, bytes })
    }
}

/// A certificate and its bytes.
#[derive(Clone, Copy)]
pub struct Held<'a> {
    pub certificate: &'a Certificate,
    pub bytes: &'a [u8],
}

/// What must hold of an entry and the other's entry of the same pair.
pub type Holds = fn(&Entry, &Entry) -> bool;

#[derive(Clone, Copy)]
pub struct Rule {
    /// The refusal that is given.
    pub refusal: fn([&Side; 2]) -> Option<Report>,
    /// What must agree before the first EN.
    pub front: fn(Held) -> Vec<u8>,
    pub holds: Holds,
    /// Do these entries cover the other ones?
    pub covers: fn(&[Entry], &[Entry], Holds) -> bool,
    /// What is said where the first covers the second or not, and the reverse.
    pub said: fn(bool, bool) -> Comparison,
}

pub const RIGHT: Rule = Rule {
    refusal: |[first, second]| first.refusal.or(second.refusal),
    front: |held| held.without(COUNT),
    holds: |own, other| own.rank <= other.rank,
    covers: every,
    said: |first, second| match (first, second) {
        (true, true) => Comparison::Equal,
        (true, false) => Comparison::First,
        (false, true) => Comparison::Second,
        (false, false) => Comparison::Neither,
    },
};

/// Where the entry count stands.
pub const COUNT: Range<usize> = 7..9;

impl Rule {
    pub fn answer(&self, sides: [&Side; 2]) -> Comparison {
        if let Some(refusal) = (self.refusal)(sides) {
            return Comparison::Refused(refusal);
        }
        let [Some(first), Some(second)] = sides.map(Side::held) else {
            return Comparison::Neither;
        };
        let agree = (self.front)(first) == (self.front)(second);
        let covers = |own: Held, other: Held| {
            let [own, other] = [own, other].map(|held| &held.certificate.entries);
            agree && (self.covers)(own, other, self.holds)
        };
        (self.said)(covers(first, second), covers(second, first))
    }
}

/// Every entry of the other has one here of the same pair, for which this holds.
pub fn every(own: &[Entry], other: &[Entry], holds: Holds) -> bool {
    let mut other = other.iter();
    other.all(|entry| find(own, entry).is_some_and(|own| holds(own, entry)))
}

/// The entry of the same pair; pairs ascend.
pub fn find<'a>(own: &'a [Entry], entry: &Entry) -> Option<&'a Entry> {
    let pair = |entry: &Entry| (entry.cell, entry.mode);
    let at = own.binary_search_by_key(&pair(entry), pair).ok()?;
    own.get(at)
}

impl Held<'_> {
    /// The offset of the first EN.
    fn first_entry(&self) -> usize {
        self.bytes.len() - 2 - 9 * self.certificate.entries.len()
    }

    /// The bytes before the first EN but those of this place.
    pub fn without(&self, place: Range<usize>) -> Vec<u8> {
        let places = 0..self.first_entry();
        let left = places.filter(|at| !place.contains(at));
        left.map(|at| self.bytes[at]).collect()
    }

    /// The same without the entry count, which stands before this place.
    pub fn without_records(&self, place: Range<usize>) -> Vec<u8> {
        let mut left = self.without(place);
        left.drain(COUNT);
        left
    }

    pub fn links(&self) -> Range<usize> {
        links_place(self.certificate)
    }

    pub fn turns(&self) -> Range<usize> {
        let start = self.links().end;
        start..start + 7 * self.certificate.turns.len()
    }

    pub fn signals(&self) -> Range<usize> {
        self.turns().end..self.modes().start
    }

    pub fn modes(&self) -> Range<usize> {
        modes_place(self.certificate)
    }

    pub fn grid(&self) -> Range<usize> {
        self.modes().end..self.arrivals().start
    }

    pub fn arrivals(&self) -> Range<usize> {
        let size = 2 + 4 * self.certificate.links.len();
        let end = self.first_entry();
        end - size * self.certificate.arrivals.len()..end
    }
}
