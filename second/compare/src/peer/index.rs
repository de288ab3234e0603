//! The index of first entries by cell, and the lookup of a run of cells.

use crate::fast::network::{Entry, Network};

/// Entries by cell.
pub struct Index {
    /// The entries of cell d are those from `first[d]` to before `first[d + 1]`.
    first: Vec<u16>,
    /// 65,536 × mode + rank of every entry.
    marks: Vec<u32>,
}

/// What an entry asks of its successors.
#[derive(Clone, Copy)]
pub struct Due {
    /// 65,536 × the next mode.
    mode: u32,
    /// Ranks must be below this.
    limit: u32,
}

impl Due {
    #[inline]
    pub fn of(entry: &Entry) -> Due {
        let limit = match entry.rank {
            0 => 1 << 16,
            rank => rank.into(),
        };
        Due {
            mode: u32::from(entry.next) << 16,
            limit,
        }
    }

    /// Has the entry of this mark the next mode, and a rank below the limit? Other modes lie 65,536 or more away.
    #[inline]
    fn is_met(self, mark: u32) -> bool {
        mark.wrapping_sub(self.mode) < self.limit
    }
}

impl Index {
    pub fn of(network: &Network) -> Index {
        Index {
            first: vec![0; network.cells + 1],
            marks: Vec::with_capacity(network.entries),
        }
    }

    /// Takes the next entry.
    #[inline]
    pub fn put(&mut self, entry: Entry) {
        let mark = u32::from(entry.mode) << 16 | u32::from(entry.rank);
        self.marks.push(mark);
        self.first[usize::from(entry.cell) + 1] = self.marks.len() as u16;
    }

    /// After the last entry: those of a cell without any end where those of the cell before it end.
    pub fn finish(&mut self) {
        let mut end = 0;
        for first in &mut self.first {
            end = end.max(*first);
            *first = end;
        }
    }

    /// Looks up each cell of a run; tells how many stand before the first that fails. Short runs are looked up in
    /// place, where their length is known.
    #[inline(always)]
    pub fn failing(&self, cell: usize, length: usize, due: Due) -> Option<usize> {
        match length {
            1 | 2 | 4 | 8 => self.failing_here(cell, length, due),
            _ => self.failing_far(cell, length, due),
        }
    }

    #[inline(never)]
    fn failing_far(&self, cell: usize, length: usize, due: Due) -> Option<usize> {
        self.failing_here(cell, length, due)
    }

    /// Four by four for speed alone.
    #[inline(always)]
    fn failing_here(&self, cell: usize, length: usize, due: Due) -> Option<usize> {
        let (&start, ends) = self.first[cell..=cell + length].split_first()?;
        let mut start = usize::from(start);
        let mut fails = |end: u16| {
            let is_met = self.is_met(start, end.into(), due);
            start = end.into();
            !is_met
        };
        let (fours, rest) = ends.as_chunks::<4>();
        for (four, ends) in fours.iter().enumerate() {
            for (number, &end) in ends.iter().enumerate() {
                if fails(end) {
                    return Some(4 * four + number);
                }
            }
        }
        for (number, &end) in rest.iter().enumerate() {
            if fails(end) {
                return Some(4 * fours.len() + number);
            }
        }
        None
    }

    /// Walks the entries of one cell, which stand from `start` to before `end`. Often the first is the one.
    #[inline(always)]
    fn is_met(&self, start: usize, end: usize, due: Due) -> bool {
        if start >= end {
            return false;
        }
        match self.marks.get(start) {
            Some(&mark) if due.is_met(mark) => true,
            _ => match self.marks.get(start + 1..end) {
                Some(marks) => marks.iter().any(|&mark| due.is_met(mark)),
                None => false,
            },
        }
    }

    /// Is a cell listed with the next mode?
    pub fn is_listed(&self, cell: usize, due: Due) -> bool {
        let entries = self.first[cell].into()..self.first[cell + 1].into();
        let mut marks = self.marks[entries].iter();
        marks.any(|mark| mark >> 16 == due.mode >> 16)
    }
}
