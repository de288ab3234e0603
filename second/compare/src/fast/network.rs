//! What a certificate holds before its entries, in arrays of full size.

/// Most links, and most arrival boxes.
pub const MOST: usize = 8;
/// Every link green.
pub const ALL_GREEN: u8 = 0xFF;

#[derive(Clone, Copy, Default)]
pub struct Link {
    pub tail: u8,
    pub head: u8,
    pub cap: u16,
    pub flow: u16,
    pub safe: u16,
    pub goal: u16,
    /// The most that leaves in the first green step; in HD certificates the flow.
    pub start: u16,
}

#[derive(Clone, Copy, Default)]
pub struct Turn {
    pub from: u8,
    pub to: u8,
    pub share: u8,
    pub pull: u16,
}

/// Places beyond the counts are 0, but for those of `before`.
#[derive(Clone, Default)]
pub struct Network {
    /// Is it opened by H2 or H3?
    pub has_starts: bool,
    /// Is it opened by H3?
    pub has_goals: bool,
    pub links: usize,
    pub turns: usize,
    pub signals: usize,
    pub modes: usize,
    pub boxes: usize,
    pub entries: usize,
    pub link: [Link; MOST],
    pub turn: [Turn; 32],
    pub green: [u8; 16],
    /// The signal that each mode remembers; 0 in HD certificates.
    pub memory: [u8; MOST],
    /// Its green byte. In HD certificates every link is green: none is held to its start flow.
    pub before: [u8; MOST],
    /// The goal of each mode, by link; 0 but in H3 certificates.
    pub goals: [[u16; MOST]; MOST],
    /// The goal number of each mode, and the one that comes after it; 0 but in H3 certificates.
    pub number: [u8; MOST],
    pub after: [u8; MOST],
    /// Intervals of each link.
    pub counts: [usize; MOST],
    /// Edges of each link: 0, the cuts, cap.
    pub edges: [[u16; 16]; MOST],
    /// Least arrivals of each link, by box.
    pub low: [[u16; MOST]; MOST],
    /// Greatest arrivals of each link, by box.
    pub high: [[u16; MOST]; MOST],
    pub cells: usize,
}

impl Network {
    /// The goal of a mode for a link.
    pub fn goal(&self, mode: usize, link: usize) -> u16 {
        match self.has_goals {
            true => self.goals[mode][link],
            false => self.link[link].goal,
        }
    }

    /// Has a mode's next mode the due goal number: the same above rank 0, with rank 0 the one after it?
    #[inline]
    pub fn keeps_turn(&self, mode: u8, next: u8, rank: u16) -> bool {
        let mode = usize::from(mode) & 7;
        let due = match rank {
            0 => self.after[mode],
            _ => self.number[mode],
        };
        self.number[usize::from(next) & 7] == due
    }

    /// Cells from one interval of a link to its next.
    pub fn strides(&self) -> [usize; MOST] {
        let mut strides = [1; MOST];
        for link in (0..self.links.saturating_sub(1)).rev() {
            strides[link] = strides[link + 1] * self.counts[link + 1];
        }
        strides
    }

    /// The interval of each link in a cell.
    pub fn intervals(&self, cell: usize) -> [usize; MOST] {
        let mut left = cell;
        let mut intervals = [0; MOST];
        for link in (0..self.links).rev() {
            intervals[link] = left % self.counts[link];
            left /= self.counts[link];
        }
        intervals
    }
}

#[derive(Clone, Copy)]
pub struct Entry {
    pub cell: u16,
    pub mode: u8,
    pub signal: u8,
    pub next: u8,
    pub rank: u16,
}

impl Entry {
    /// The fields of an EN record.
    #[inline]
    pub fn of(record: &[u8; 9]) -> Entry {
        Entry {
            cell: u16::from_be_bytes([record[2], record[3]]),
            mode: record[4],
            signal: record[5],
            next: record[6],
            rank: u16::from_be_bytes([record[7], record[8]]),
        }
    }
}
