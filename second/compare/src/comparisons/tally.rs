//! What pairs were compared, and how often each answer came.

mod shown;

use super::draw::{Pair, Way};
use crate::tally::Numbered;
use second::certificate::Kind;
use second::comparing::Table;
use second::{Comparison, Report};

/// Entries of the largest certificates.
const MOST_ENTRIES: usize = 4_096;

#[derive(Clone, Debug, Default)]
pub struct Tally {
    /// Pairs of each kind, in the order of `Kind::ALL`.
    pub kinds: [u64; 3],
    /// Pairs of each way, in the order of `Way::ALL`.
    pub ways: [u64; Way::ALL.len()],
    pub equal: Equal,
    pub first: Better,
    pub second: Better,
    pub neither: Neither,
    pub refused: Refused,
    /// Accepted pairs of equal fronts whose entry counts differ in the low byte, and in the high byte.
    pub low: u64,
    pub high: u64,
    /// Entries of the largest accepted certificate, and pairs with 4,096 of them.
    pub largest: usize,
    pub full: u64,
    /// Pairs that were compared with themselves, and with answers of every length; calls in all.
    pub selves: u64,
    pub lengths: u64,
    pub calls: u64,
}

/// Pairs that are equal.
#[derive(Clone, Debug, Default)]
pub struct Equal {
    pub all: u64,
    /// Those whose bytes differ: in signals, and in next modes.
    pub other_bytes: u64,
    pub signals: u64,
    pub next_modes: u64,
}

/// Pairs of which one is better.
#[derive(Clone, Debug, Default)]
pub struct Better {
    pub all: u64,
    /// By lower ranks alone, by more pairs alone, by both.
    pub ranks: u64,
    pub pairs: u64,
    pub both: u64,
}

/// Pairs of which neither is better.
#[derive(Clone, Debug, Default)]
pub struct Neither {
    pub all: u64,
    /// Fronts differ; of those the ones that do so in one byte, in the mark too, and whose entries alone would be
    /// equal or better.
    pub fronts: u64,
    pub one_byte: u64,
    pub marks: u64,
    pub alone: u64,
    /// Fronts agree: ranks are lower here and there, pairs are missing here and there, or one of each.
    pub ranks: u64,
    pub pairs: u64,
    pub mixed: u64,
}

impl Neither {
    /// Those whose fronts agree.
    pub fn same_fronts(&self) -> u64 {
        self.all - self.fronts
    }
}

/// Pairs that are refused: the first one alone, the second one alone, both.
#[derive(Clone, Debug, Default)]
pub struct Refused {
    pub first: u64,
    pub second: u64,
    pub both: u64,
    /// By the number that is given.
    pub numbers: Numbered,
}

impl Refused {
    pub fn all(&self) -> u64 {
        self.first + self.second + self.both
    }
}

/// Where a table is better than another one, fronts aside.
#[derive(Clone, Copy, Debug, PartialEq, Eq)]
struct Lead {
    /// Some pair of both has a lower rank here.
    ranks: bool,
    /// Some pair is listed here alone.
    pairs: bool,
}

impl Lead {
    fn of(own: &Table, other: &Table) -> Lead {
        let mut lead = Lead {
            ranks: false,
            pairs: false,
        };
        for (pair, rank) in &own.ranks {
            match other.ranks.get(pair) {
                None => lead.pairs = true,
                Some(there) => lead.ranks |= rank < there,
            }
        }
        lead
    }
}

impl Tally {
    pub fn add(&mut self, pair: &Pair, tables: &[Result<Table, Report>; 2], answer: Comparison) {
        for (count, kind) in self.kinds.iter_mut().zip(Kind::ALL) {
            *count += u64::from(kind == pair.kind);
        }
        let way = Way::ALL.iter().position(|&(way, _)| way == pair.way);
        self.ways[way.unwrap_or(0)] += 1;
        let sizes = tables.iter().flatten().map(|table| table.ranks.len());
        let largest = sizes.max().unwrap_or(0);
        self.largest = self.largest.max(largest);
        self.full += u64::from(largest == MOST_ENTRIES);
        match tables {
            [Ok(one), Ok(other)] => self.add_accepted(pair, [one, other], answer),
            [one, other] => self.refused.add(one.is_ok(), other.is_ok(), answer),
        }
    }

    fn add_accepted(&mut self, pair: &Pair, [one, other]: [&Table; 2], answer: Comparison) {
        let leads = [Lead::of(one, other), Lead::of(other, one)];
        if one.front == other.front {
            let [own, there] = [one, other].map(|table| (table.ranks.len() as u16).to_be_bytes());
            self.high += u64::from(own[0] != there[0]);
            self.low += u64::from(own[1] != there[1]);
        }
        match answer {
            Comparison::Equal => self.equal.add(pair),
            Comparison::First => self.first.add(leads[0]),
            Comparison::Second => self.second.add(leads[1]),
            Comparison::Neither => self.neither.add([one, other], leads),
            Comparison::Refused(_) => (),
        }
    }

    /// All pairs.
    pub fn pairs(&self) -> u64 {
        self.ways.iter().sum()
    }

    /// How often each answer came: equal, first, second, neither, refused.
    pub fn answers(&self) -> [u64; 5] {
        [
            self.equal.all,
            self.first.all,
            self.second.all,
            self.neither.all,
            self.refused.all(),
        ]
    }
}

impl Equal {
    fn add(&mut self, pair: &Pair) {
        let [one, other] = &pair.bytes;
        self.all += 1;
        self.other_bytes += u64::from(one != other);
        let read = [one, other].map(|bytes| second::reading::read(bytes));
        if let [Ok(one), Ok(other)] = read {
            let entries = || one.entries.iter().zip(&other.entries);
            let signals = entries().any(|(own, there)| own.signal != there.signal);
            let next_modes = entries().any(|(own, there)| own.next != there.next);
            self.signals += u64::from(signals);
            self.next_modes += u64::from(next_modes);
        }
    }
}

impl Better {
    fn add(&mut self, lead: Lead) {
        self.all += 1;
        match (lead.ranks, lead.pairs) {
            (true, true) => self.both += 1,
            (true, false) => self.ranks += 1,
            _ => self.pairs += 1,
        }
    }
}

impl Neither {
    fn add(&mut self, [one, other]: [&Table; 2], leads: [Lead; 2]) {
        self.all += 1;
        if one.front != other.front {
            let same_length = one.front.len() == other.front.len();
            let bytes = one.front.iter().zip(&other.front);
            let differing = bytes.filter(|(own, there)| own != there).count();
            self.fronts += 1;
            self.one_byte += u64::from(same_length && differing == 1);
            self.marks += u64::from(one.front[..2] != other.front[..2]);
            self.alone += u64::from(leads.iter().any(|lead| !lead.ranks && !lead.pairs));
            return;
        }
        let ranks = leads.iter().all(|lead| lead.ranks);
        let pairs = leads.iter().all(|lead| lead.pairs);
        self.ranks += u64::from(ranks);
        self.pairs += u64::from(pairs);
        self.mixed += u64::from(!ranks && !pairs);
    }
}

impl Refused {
    fn add(&mut self, first: bool, second: bool, answer: Comparison) {
        match (first, second) {
            (false, true) => self.first += 1,
            (true, false) => self.second += 1,
            _ => self.both += 1,
        }
        self.numbers.add(answer.report().number);
    }
}
