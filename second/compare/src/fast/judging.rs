//! Judging the entries: refusals 12 to 15, the count, and how many entries may overflow.

use super::image::Flows;
use super::lookup::{Failing, Lookup, Ranks};
use super::network::{Entry, Network, MOST};
use super::place::Place;
use super::ranges::{Range, Steps};
use super::reading::{read, Read};
use second::{Report, Verdict};

/// Judges any bytes.
pub fn judge(bytes: &[u8]) -> Verdict {
    match read_ranked(bytes, &mut Network::default()) {
        Ok((read, ranks)) => judge_entries(&read, &ranks),
        Err(refusal) => Verdict::refused(refusal),
    }
}

/// Reads, and puts the ranks into their table on the way.
pub fn read_ranked<'a>(
    bytes: &'a [u8],
    network: &'a mut Network,
) -> Result<(Read<'a>, Ranks), Report> {
    read(bytes, network, Ranks::of, Ranks::put)
}

/// Judges a certificate that has passed every test before 12.
pub fn judge_entries(read: &Read, ranks: &Ranks) -> Verdict {
    let network = read.network;
    let mut judging = Judging {
        network,
        flows: Flows::of(network),
        steps: Steps::of(network, &ranks.blocks.strides),
        lookup: Lookup::of(network, ranks),
        place: Place::first(network),
        imaged: None,
        ranges: [Range::default(); MOST],
        count: 0,
        overflows: 0,
    };
    for (number, record) in read.records.iter().enumerate() {
        let entry = Entry::of(record);
        if let Err(refusal) = judging.entry(number, entry) {
            return Verdict::refused(refusal.counting(judging.count));
        }
    }
    Verdict::accepted(judging.count, judging.overflows)
}

struct Judging<'a> {
    network: &'a Network,
    flows: Flows,
    steps: Steps,
    lookup: Lookup<'a>,
    place: Place,
    /// The cell, the green byte and the one before it that the ranges belong to.
    imaged: Option<(u16, u8, u8)>,
    ranges: [Range; MOST],
    count: u64,
    overflows: u64,
}

impl Judging<'_> {
    #[inline]
    fn entry(&mut self, number: usize, entry: Entry) -> Result<(), Report> {
        self.place.pass_to(entry.cell.into(), self.network);
        if !self.place.is_safe() {
            return Err(Report::at(12, number));
        }
        if (entry.rank == 0) != self.place.is_goal(entry.mode) {
            return Err(Report::at(13, number));
        }
        let green = self.network.green[usize::from(entry.signal) & 15];
        let before = self.network.before[usize::from(entry.mode) & 7];
        let imaged = Some((entry.cell, green, before));
        if self.imaged != imaged {
            let ends = self.flows.ends(green, before, &self.place.intervals);
            self.ranges = self.steps.ranges(&ends);
            self.imaged = imaged;
        }
        let mut over = 0;
        for range in &self.ranges[..self.network.boxes] {
            over |= range.over;
            let looked = self.lookup.look(&entry, *range);
            match looked {
                Ok(looked) => self.count += looked as u64,
                Err(failing) => return Err(self.refuse(number, failing)),
            }
        }
        self.overflows += u64::from(over != 0);
        Ok(())
    }

    #[cold]
    fn refuse(&mut self, number: usize, failing: Failing) -> Report {
        self.count += failing.looked as u64;
        let refusal = if failing.listed { 15 } else { 14 };
        Report::at(refusal, number).and(failing.cell)
    }
}
