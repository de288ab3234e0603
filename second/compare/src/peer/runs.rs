//! The successors of one arrival box as runs of consecutive cells.

use super::index::{Due, Index};
use crate::fast::network::{Network, MOST};

/// The runs of ranges of one shape. Trailing links whose range is full lengthen a run; the links before turn like the
/// wheels of an odometer, those of one interval left out.
pub struct Runs {
    links: usize,
    counts: [usize; MOST],
    strides: [usize; MOST],
    /// The shape that what follows belongs to.
    shape: Option<u32>,
    /// Cells of a run.
    length: usize,
    /// Runs of a round of the fastest wheel, and cells from one to the next.
    round: usize,
    stride: usize,
    /// The slower wheels.
    wheels: usize,
    /// Steps of each of them.
    steps: [u8; MOST],
    /// From behind a round to the first run of the next one, when the wheel steps and all faster ones start again.
    jumps: [isize; MOST],
}

/// A successor that fails: how many have been looked up with it, and its cell.
pub struct Failing {
    pub looked: usize,
    pub cell: usize,
}

impl Runs {
    pub fn of(network: &Network) -> Runs {
        Runs {
            links: network.links,
            counts: network.counts,
            strides: network.strides(),
            shape: None,
            length: 1,
            round: 1,
            stride: 0,
            wheels: 0,
            steps: [0; MOST],
            jumps: [0; MOST],
        }
    }

    /// Passes to ranges of another shape: four bits a link that say how many intervals more the range has.
    #[inline]
    pub fn pass_to(&mut self, shape: u32) {
        if self.shape != Some(shape) {
            self.shape = Some(shape);
            self.take(shape);
        }
    }

    fn take(&mut self, shape: u32) {
        let more = |link: usize| (shape >> (4 * link) & 15) as usize;
        let mut link = self.links;
        let mut is_full = true;
        self.length = 1;
        while is_full && link > 0 {
            link -= 1;
            self.length *= more(link) + 1;
            is_full = more(link) + 1 == self.counts[link];
        }
        let mut turning = (0..link).rev().filter(|&link| more(link) > 0);
        (self.round, self.stride) = match turning.next() {
            Some(link) => (more(link) + 1, self.strides[link]),
            None => (1, 0),
        };
        let mut back = (self.round * self.stride) as isize;
        self.wheels = 0;
        for link in turning {
            let stride = self.strides[link] as isize;
            self.steps[self.wheels] = more(link) as u8;
            self.jumps[self.wheels] = stride - back;
            self.wheels += 1;
            back += stride * more(link) as isize;
        }
    }

    /// Looks up every successor from the first cell on, until one fails; tells how many there are. Runs of the usual
    /// short lengths have loops of their own.
    #[inline(never)]
    pub fn look(&self, index: &Index, first: u32, due: Due) -> Result<usize, Failing> {
        match self.length {
            1 => self.look_runs(1, index, first, due),
            2 => self.look_runs(2, index, first, due),
            4 => self.look_runs(4, index, first, due),
            8 => self.look_runs(8, index, first, due),
            length => self.look_runs(length, index, first, due),
        }
    }

    #[inline(always)]
    fn look_runs(
        &self,
        length: usize,
        index: &Index,
        first: u32,
        due: Due,
    ) -> Result<usize, Failing> {
        let mut cell = first as usize;
        let mut left = self.steps;
        let mut looked = 0;
        loop {
            for _ in 0..self.round {
                if let Some(before) = index.failing(cell, length, due) {
                    looked += before + 1;
                    cell += before;
                    return Err(Failing { looked, cell });
                }
                looked += length;
                cell += self.stride;
            }
            match self.turn(&mut left) {
                Some(jump) => cell = cell.wrapping_add_signed(jump),
                None => return Ok(looked),
            }
        }
    }

    /// Turns the slower wheels to the next round; none if that was the last.
    #[inline(always)]
    fn turn(&self, left: &mut [u8; MOST]) -> Option<isize> {
        let wheels = left.iter_mut().zip(&self.steps).zip(&self.jumps);
        for ((left, &steps), &jump) in wheels.take(self.wheels) {
            if *left > 0 {
                *left -= 1;
                return Some(jump);
            }
            *left = steps;
        }
        None
    }
}
