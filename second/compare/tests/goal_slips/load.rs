//! A load, and where a slip would give another verdict on it.

use super::rules::{is_faulty_mode, keeps_turn, Limits, Mode, Step};
use second::certificate::{Certificate, Entry, Kind};
use second::conditions::read_sound;
use second::grid::{cells, Cell};
use second::Verdict;

/// Bytes of H3, of an LK, of a TN, of an SG and of an EN.
const HEADER: usize = 9;
const LINK: usize = 14;
const TURN: usize = 7;
const SIGNAL: usize = 3;
const ENTRY: usize = 9;

fn wide(bytes: &[u8], at: usize) -> u16 {
    u16::from_be_bytes([bytes[at], bytes[at + 1]])
}

/// Bytes and the right verdict on them.
pub struct Load {
    pub bytes: Vec<u8>,
    pub right: Verdict,
}

impl Load {
    fn count(&self, at: usize) -> usize {
        self.bytes[at].into()
    }

    fn modes_at(&self) -> usize {
        HEADER + LINK * self.count(2) + TURN * self.count(3) + SIGNAL * self.count(4)
    }

    fn mode_size(&self) -> usize {
        4 + 2 * self.count(2)
    }

    /// Does it open with H3, and are the records before the modes right?
    fn reaches_modes(&self) -> bool {
        let at = self.right.report.a as usize;
        let in_reading = matches!(self.right.report.number, 1..=9 | 22..=24);
        let is_read = !in_reading || at >= HEADER && at >= self.modes_at();
        self.bytes.starts_with(b"H3") && is_read
    }

    /// The modes up to the one that is refused, if any is.
    fn modes(&self) -> Vec<Mode> {
        let refused = matches!(self.right.report.number, 1..=8);
        let end = match refused {
            true => self.right.report.a as usize + self.mode_size(),
            false => self.bytes.len(),
        };
        let records =
            self.bytes[self.modes_at()..end.min(self.bytes.len())].chunks_exact(self.mode_size());
        let whole = records
            .take(self.count(5))
            .take_while(|r| r.starts_with(b"MD"));
        let mode = |record: &[u8]| Mode {
            signal: record[2],
            number: record[3],
            goals: (0..self.count(2))
                .map(|link| wide(record, 4 + 2 * link))
                .collect(),
        };
        whole.map(mode).collect()
    }

    fn limits(&self) -> Limits {
        let link = |link: usize, field: usize| wide(&self.bytes, HEADER + LINK * link + field);
        let all = |field: usize| (0..self.count(2)).map(|l| link(l, field)).collect();
        Limits {
            signals: self.bytes[4],
            safe: all(8),
            cap: all(4),
        }
    }

    /// Is the mode at fault another one by this test of each mode with those before it? The last one is told by how
    /// many modes there are.
    pub fn modes_differ(&self, is_faulty: fn(&[Mode], usize, &Limits) -> bool) -> bool {
        if !self.reaches_modes() {
            return false;
        }
        let (modes, limits) = (self.modes(), self.limits());
        let first = |test: fn(&[Mode], usize, &Limits) -> bool| {
            (1..=modes.len()).find(|&many| test(&modes[..many], self.count(5), &limits))
        };
        first(is_faulty) != first(is_faulty_mode)
    }

    /// The offset of the first mode at fault.
    pub fn refused_mode(&self) -> Option<usize> {
        if !self.reaches_modes() {
            return None;
        }
        let (modes, limits) = (self.modes(), self.limits());
        let mut many = 1..=modes.len();
        let first = many.find(|&many| is_faulty_mode(&modes[..many], self.count(5), &limits))?;
        Some(self.modes_at() + self.mode_size() * (first - 1))
    }

    /// Is an MD record refused with 6?
    pub fn is_refused_at_a_mode(&self) -> bool {
        self.right.report.number == 6
            && self.reaches_modes()
            && self.right.report.a as usize >= self.modes_at()
    }

    /// The offset of the first entry out of turn, if no other refusal of reading comes before.
    pub fn refused_turn(&self) -> Option<usize> {
        if !self.reaches_modes() || !matches!(self.right.report.number, 0 | 10..=15 | 24) {
            return None;
        }
        let steps = self.steps(&self.entries());
        let first = steps.iter().position(|&step| !keeps_turn(step))?;
        Some(self.first_entry() + ENTRY * first)
    }

    /// The entries that are read, up to the one that is refused in reading, if any is.
    fn entries(&self) -> Vec<Entry> {
        let report = self.right.report;
        let at = report.a as usize;
        let end = match report.number {
            9 | 22..=24 => at + ENTRY,
            1..=8 => return Vec::new(),
            _ => self.bytes.len() - 2,
        };
        let entry = |record: &[u8]| Entry {
            cell: wide(record, 2),
            mode: record[4],
            signal: record[5],
            next: record[6],
            rank: wide(record, 7),
        };
        self.bytes[self.first_entry()..end]
            .chunks_exact(ENTRY)
            .map(entry)
            .collect()
    }

    /// Where the first EN stands, if the records before it are right.
    fn first_entry(&self) -> usize {
        let mut at = self.modes_at() + self.mode_size() * self.count(5);
        for _ in 0..self.count(2) {
            at += 3 + 2 * (self.count(at + 2) - 1);
        }
        at + (2 + 4 * self.count(2)) * self.count(6)
    }

    /// The goal numbers of entries whose modes exist.
    fn steps(&self, entries: &[Entry]) -> Vec<Step> {
        let modes = self.modes();
        let number = |mode: u8| modes[usize::from(mode)].number;
        let greatest = modes.iter().map(|mode| mode.number).max().unwrap_or(0);
        let listed = entries.iter().map(|e| number(e.mode)).max().unwrap_or(0);
        let step = |entry: &Entry| Step {
            from: number(entry.mode),
            to: number(entry.next),
            rank: entry.rank,
            greatest,
            listed,
        };
        entries.iter().map(step).collect()
    }

    /// Is the first entry out of turn another one by this test of rank and goal numbers?
    pub fn turns_differ(&self, keeps: fn(Step) -> bool) -> bool {
        if !self.reaches_modes() {
            return false;
        }
        let mut entries = self.entries();
        // Of an entry that is refused with 9, 22 or 23, nothing is asked.
        if matches!(self.right.report.number, 9 | 22 | 23) {
            entries.pop();
        }
        let steps = self.steps(&entries);
        let first = |test: fn(Step) -> bool| steps.iter().position(|&step| !test(step));
        first(keeps) != first(keeps_turn)
    }

    /// Is the entry that is refused with this number out of turn as well?
    pub fn turn_comes_first(&self, number: u32) -> bool {
        if self.right.report.number != number || !self.reaches_modes() {
            return false;
        }
        let steps = self.steps(&self.entries());
        steps.last().is_some_and(|&last| !keeps_turn(last))
    }

    /// Is an entry's rank held against another goal somewhere, before another refusal comes?
    pub fn goals_differ(&self, goal: fn(&Certificate, &Entry, usize) -> u16) -> bool {
        let read = read_sound(&self.bytes).ok().filter(|c| c.kind == Kind::H3);
        let Some(certificate) = read else {
            return false;
        };
        let cells = cells(&certificate);
        let report = self.right.report;
        let last = match report.number {
            0 => certificate.entries.len(),
            12 => report.a as usize,
            _ => report.a as usize + 1,
        };
        let is_in = |cell: &Cell, goal: &dyn Fn(usize) -> u16| {
            let mut links = cell.iter().enumerate();
            links.all(|(link, interval)| interval.high <= goal(link))
        };
        certificate.entries[..last].iter().any(|entry| {
            let cell = &cells[usize::from(entry.cell)];
            let right = is_in(cell, &|link| certificate.goal(entry.mode.into(), link));
            right != is_in(cell, &|link| goal(&certificate, entry, link))
        })
    }
}
