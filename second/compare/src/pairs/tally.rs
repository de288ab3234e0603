//! What pairs were compared, and how often each answer came.

use super::draw::Pair;
use crate::tally::Numbered;
use second::certificate::Kind;
use std::fmt;

/// Ranks above this are told as high, and above this as near the greatest.
const HIGH: u16 = 255;
const NEAR: u16 = 65_000;

#[derive(Clone, Debug, Default)]
pub struct Tally {
    /// Pairs of each kind, in the order of `Kind::ALL`.
    pub kinds: [u64; 3],
    /// Pairs that differ, and those of them in one entry alone and in the high byte of some rank.
    pub differ: u64,
    pub single: u64,
    pub high: u64,
    /// Entries that differ in all pairs together.
    pub entries: u64,
    /// Entries of the largest certificate.
    pub largest: usize,
    /// Pairs with a rank above 255, and above 65,000, in one of the certificates.
    pub above: u64,
    pub near: u64,
    /// Pairs without any call.
    pub silent: u64,
    pub queries: Numbered,
    pub polls: Numbered,
    /// Calls that passed to another mode.
    pub moved: u64,
}

impl Tally {
    pub fn add(&mut self, pair: &Pair, calls: usize) {
        let kind = pair.certificate.kind;
        for (count, of) in self.kinds.iter_mut().zip(Kind::ALL) {
            *count += u64::from(kind == of);
        }
        let changed = pair.changed;
        self.differ += u64::from(changed.entries > 0);
        self.single += u64::from(changed.entries == 1);
        self.high += u64::from(changed.high > 0);
        self.entries += changed.entries as u64;
        self.largest = self.largest.max(pair.certificate.entries.len());
        let greatest = pair.bytes.iter().map(|bytes| greatest_rank(bytes)).max();
        self.above += u64::from(greatest > Some(HIGH));
        self.near += u64::from(greatest > Some(NEAR));
        self.silent += u64::from(calls == 0);
    }

    pub fn pairs(&self) -> u64 {
        self.kinds.iter().sum()
    }
}

/// The greatest rank of a certificate.
fn greatest_rank(bytes: &[u8]) -> u16 {
    let entries = second::reading::read(bytes).map(|read| read.entries);
    let ranks = entries.iter().flatten().map(|entry| entry.rank);
    ranks.max().unwrap_or(0)
}

impl fmt::Display for Tally {
    fn fmt(&self, out: &mut fmt::Formatter<'_>) -> fmt::Result {
        let [hd, h2, h3] = self.kinds;
        writeln!(out, "pairs: {hd} HD, {h2} H2, {h3} H3")?;
        writeln!(
            out,
            "  differ: {}, {} of them in one entry, {} in the high byte of a rank; {} entries together",
            self.differ, self.single, self.high, self.entries
        )?;
        writeln!(out, "  the same: {}", self.pairs() - self.differ)?;
        writeln!(
            out,
            "  with a rank above {HIGH}: {}, above {NEAR}: {}",
            self.above, self.near
        )?;
        writeln!(out, "  without calls: {}", self.silent)?;
        writeln!(out, "  entries of the largest: {}", self.largest)?;
        writeln!(out, "queries: {}", self.queries)?;
        writeln!(out, "polls: {}", self.polls)?;
        writeln!(out, "calls that passed to another mode: {}", self.moved)?;
        write!(
            out,
            "{} pairs, {} queries, {} polls",
            self.pairs(),
            self.queries.all(),
            self.polls.all()
        )
    }
}
