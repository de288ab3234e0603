//! Judging the entries of a certificate: refusals 12 to 15, the count, and how many entries may overflow.

use crate::certificate::{Certificate, Entry};
use crate::conditions::read_sound;
use crate::grid::{cells, Cell, Interval};
use crate::image::image;
use crate::report::{Report, Verdict};

/// Judges any bytes: 0 with the count and the entries that may overflow, or the first refusal of 1 to 15 and 22 to
/// 24.
pub fn judge(bytes: &[u8]) -> Verdict {
    match read_sound(bytes) {
        Ok(certificate) => judge_entries(&certificate),
        Err(refusal) => Verdict::refused(refusal),
    }
}

/// Judges the entries of a certificate that has passed every test before 12.
pub fn judge_entries(certificate: &Certificate) -> Verdict {
    let cells = cells(certificate);
    let judging = Judging {
        certificate,
        ranks: listed_ranks(certificate, cells.len()),
        cells,
    };
    let (mut count, mut overflows) = (0, 0);
    for number in 0..certificate.entries.len() {
        match judging.entry(number, &mut count) {
            Ok(true) => overflows += 1,
            Ok(false) => (),
            Err(refusal) => return Verdict::refused(refusal.counting(count)),
        }
    }
    Verdict::accepted(count, overflows)
}

/// The rank of each listed pair, by cell and then mode.
fn listed_ranks(certificate: &Certificate, cells: usize) -> Vec<Vec<Option<u16>>> {
    let none = vec![None; certificate.modes.into()];
    let mut ranks = vec![none; cells];
    for entry in &certificate.entries {
        ranks[usize::from(entry.cell)][usize::from(entry.mode)] = Some(entry.rank);
    }
    ranks
}

/// Do all upper edges of the cell keep to a limit, which is told by link?
fn upper_edges_within(cell: &[Interval], limit: impl Fn(usize) -> u16) -> bool {
    let mut links = cell.iter().enumerate();
    links.all(|(link, interval)| interval.high <= limit(link))
}

struct Judging<'a> {
    certificate: &'a Certificate,
    cells: Vec<Cell>,
    ranks: Vec<Vec<Option<u16>>>,
}

impl Judging<'_> {
    /// Judges one entry whole: safe, rank against goal, then its successors. Tells whether a link may exceed its cap in
    /// some arrival box.
    fn entry(&self, number: usize, count: &mut u64) -> Result<bool, Report> {
        let entry = &self.certificate.entries[number];
        let cell = &self.cells[usize::from(entry.cell)];
        if !upper_edges_within(cell, |link| self.certificate.links[link].safe) {
            return Err(Report::at(12, number));
        }
        let mode = usize::from(entry.mode);
        let in_goal = upper_edges_within(cell, |link| self.certificate.goal(mode, link));
        if (entry.rank == 0) != in_goal {
            return Err(Report::at(13, number));
        }
        let greens = self.certificate.greens(entry);
        let mut overflows = false;
        for arrivals in &self.certificate.arrivals {
            let image = image(self.certificate, greens, cell, arrivals);
            overflows |= image.overflows();
            for (successor, other) in self.cells.iter().enumerate() {
                if image.meets(other) {
                    *count += 1;
                    self.successor(entry, successor)
                        .map_err(|refusal| Report::at(refusal, number).and(successor))?;
                }
            }
        }
        Ok(overflows)
    }

    /// Looks one successor up: listed with the next mode, then lower in rank unless the entry has rank 0.
    fn successor(&self, entry: &Entry, successor: usize) -> Result<(), u32> {
        match self.ranks[successor][usize::from(entry.next)] {
            None => Err(14),
            Some(rank) if entry.rank > 0 && rank >= entry.rank => Err(15),
            Some(_) => Ok(()),
        }
    }
}
