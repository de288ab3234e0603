//! Judging the entries: refusals 12 to 15, the count, and how many entries may overflow.

use super::index::{Due, Index};
use super::runs::{Failing, Runs};
use crate::fast::image::Flows;
use crate::fast::network::{Entry, Network};
use crate::fast::place::Place;
use crate::fast::ranges::Steps;
use crate::fast::reading::{read, Read};
use second::{Report, Verdict};

/// Reads, and builds the index on the way.
pub fn read_indexed<'a>(
    bytes: &'a [u8],
    network: &'a mut Network,
) -> Result<(Read<'a>, Index), Report> {
    let (read, mut index) = read(bytes, network, Index::of, Index::put)?;
    index.finish();
    Ok((read, index))
}

/// Judges a certificate that has passed every test before 12.
pub fn judge_entries(read: &Read, index: &Index) -> Verdict {
    let network = read.network;
    let mut judging = Judging {
        network,
        index,
        flows: Flows::of(network),
        steps: Steps::of(network, &network.strides()),
        runs: Runs::of(network),
        place: Place::first(network),
        count: 0,
        overflows: 0,
    };
    for (number, record) in read.records.iter().enumerate() {
        if let Err(refusal) = judging.entry(number, Entry::of(record)) {
            return Verdict::refused(refusal.counting(judging.count));
        }
    }
    Verdict::accepted(judging.count, judging.overflows)
}

struct Judging<'a> {
    network: &'a Network,
    index: &'a Index,
    flows: Flows,
    steps: Steps,
    runs: Runs,
    place: Place,
    count: u64,
    overflows: u64,
}

impl Judging<'_> {
    #[inline]
    fn entry(&mut self, number: usize, entry: Entry) -> Result<(), Report> {
        self.place.pass_to(entry.cell.into(), self.network);
        if !self.place.is_safe() {
            return Err(Report::at(12, number));
        }
        if (entry.rank == 0) != self.place.is_goal(entry.mode) {
            return Err(Report::at(13, number));
        }
        let green = self.network.green[usize::from(entry.signal) & 15];
        let before = self.network.before[usize::from(entry.mode) & 7];
        let ends = self.flows.ends(green, before, &self.place.intervals);
        let ranges = self.steps.ranges(&ends);
        let due = Due::of(&entry);
        let mut over = 0;
        for range in &ranges[..self.network.boxes] {
            over |= range.over;
            self.runs.pass_to(range.shape);
            match self.runs.look(self.index, range.first, due) {
                Ok(looked) => self.count += looked as u64,
                Err(failing) => return Err(self.refuse(number, failing, due)),
            }
        }
        self.overflows += u64::from(over != 0);
        Ok(())
    }

    #[cold]
    fn refuse(&mut self, number: usize, failing: Failing, due: Due) -> Report {
        self.count += failing.looked as u64;
        let listed = self.index.is_listed(failing.cell, due);
        let refusal = if listed { 15 } else { 14 };
        Report::at(refusal, number).and(failing.cell)
    }
}
