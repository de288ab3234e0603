//! Looking successors up: ranks by mode and cell, a block of cells at a time.

use super::blocks::Blocks;
use super::network::{Entry, Network};
use super::ranges::Range;

/// The greatest rank, and what the table holds where no entry is listed.
const GREATEST: i16 = i16::MAX;

/// The rank of each entry, by mode and then the place of its cell.
pub struct Ranks {
    pub blocks: Blocks,
    table: Vec<i16>,
    listed: Vec<bool>,
}

impl Ranks {
    pub fn of(network: &Network) -> Ranks {
        let blocks = Blocks::of(network);
        let places = blocks.places * network.modes;
        Ranks {
            table: vec![GREATEST; places],
            listed: vec![false; places],
            blocks,
        }
    }

    #[inline]
    pub fn put(&mut self, entry: Entry) {
        let place = self.blocks.place(entry.cell.into());
        let place = usize::from(entry.mode) * self.blocks.places + place;
        self.table[place] = lowered(entry.rank);
        self.listed[place] = true;
    }
}

/// A successor that fails: how many have been looked up with it, and its cell.
pub struct Failing {
    pub looked: usize,
    pub cell: usize,
    pub listed: bool,
}

/// Looks up the successors of ranges, whose first cells are given by their places.
pub struct Lookup<'a> {
    ranks: &'a Ranks,
    links: usize,
    /// The shape that what follows belongs to.
    shape: Option<u32>,
    /// The successors within a block: bit i is the cell i places behind the first.
    bits: u32,
    lanes: Lanes,
    /// Where blocks start, counted from the first; only `found` of them count.
    starts: Vec<u16>,
    found: usize,
}

impl Lookup<'_> {
    pub fn of<'a>(network: &Network, ranks: &'a Ranks) -> Lookup<'a> {
        Lookup {
            ranks,
            links: network.links,
            shape: None,
            bits: 1,
            lanes: Lanes::of(1),
            starts: vec![0; network.cells / ranks.blocks.inner],
            found: 1,
        }
    }

    /// Each successor must be listed, with a rank below that of the entry unless that is 0. Tells how many there are.
    #[inline]
    pub fn look(&mut self, entry: &Entry, range: Range) -> Result<usize, Failing> {
        if self.shape != Some(range.shape) {
            self.take(range.shape);
        }
        let blocks = &self.ranks.blocks;
        let mode = usize::from(entry.next) * blocks.places;
        let lane = range.first as usize & (blocks.lanes - 1);
        let bits = self.bits << lane;
        let first = range.first as usize - lane;
        let ranks = &self.ranks.table[mode + first..mode + blocks.places];
        let starts = &self.starts[..self.found];
        let most = match entry.rank {
            0 => GREATEST - 1,
            rank => lowered(rank - 1),
        };
        if self.lanes.bits != bits {
            self.lanes = Lanes::of(bits);
        }
        let below = match blocks.lanes {
            8 => self.lanes.none_above::<8>(ranks, starts, most),
            _ => self.lanes.none_above::<16>(ranks, starts, most),
        };
        match below {
            true => Ok(bits.count_ones() as usize * starts.len()),
            false => self.look_again(entry, first, bits),
        }
    }

    /// Finds the blocks of a shape, and the successors within each.
    fn take(&mut self, shape: u32) {
        let span = |link: usize| (shape >> (4 * link) & 15) as usize + 1;
        let blocks = &self.ranks.blocks;
        self.bits = 1;
        for link in (blocks.split..self.links).rev() {
            let one = self.bits;
            for step in 1..span(link) {
                self.bits |= one << (step * blocks.strides[link & 7]);
            }
        }
        self.found = 1;
        for link in (0..blocks.split).rev() {
            let (found, more) = self.starts.split_at_mut(self.found);
            let mut ahead = 0;
            for copies in more.chunks_exact_mut(self.found).take(span(link) - 1) {
                ahead += blocks.strides[link & 7] as u16;
                for (copy, start) in copies.iter_mut().zip(&*found) {
                    *copy = start + ahead;
                }
            }
            self.found *= span(link);
        }
        self.shape = Some(shape);
    }

    /// One by one, and so that the greatest rank is not taken for no entry.
    #[cold]
    fn look_again(&self, entry: &Entry, first: usize, bits: u32) -> Result<usize, Failing> {
        let blocks = &self.ranks.blocks;
        let mode = usize::from(entry.next) * blocks.places;
        let mut looked = 0;
        for &start in &self.starts[..self.found] {
            for lane in (0..16).filter(|lane| bits >> lane & 1 == 1) {
                looked += 1;
                let place = first + usize::from(start) + lane;
                let listed = self.ranks.listed[mode + place];
                if !listed
                    || (entry.rank > 0 && self.ranks.table[mode + place] >= lowered(entry.rank))
                {
                    let cell = blocks.cell(place);
                    return Err(Failing {
                        looked,
                        cell,
                        listed,
                    });
                }
            }
        }
        Ok(looked)
    }
}

/// The lanes of a block that are successors.
struct Lanes {
    bits: u32,
    /// All bits set in the lanes of successors.
    taken: [i16; 16],
    /// The least number in all other lanes.
    least: [i16; 16],
}

impl Lanes {
    fn of(bits: u32) -> Lanes {
        let is_other = |lane: usize| bits >> lane & 1 == 0;
        Lanes {
            bits,
            taken: std::array::from_fn(|lane| if is_other(lane) { 0 } else { -1 }),
            least: std::array::from_fn(|lane| if is_other(lane) { i16::MIN } else { 0 }),
        }
    }

    /// Is no rank of a successor above `most`?
    #[inline]
    fn none_above<const LANES: usize>(&self, ranks: &[i16], starts: &[u16], most: i16) -> bool {
        let mut greatest = [i16::MIN; LANES];
        for &start in starts {
            let Some(block) = ranks[usize::from(start)..].first_chunk::<LANES>() else {
                return false;
            };
            for lane in 0..LANES {
                let rank = block[lane] & self.taken[lane] | self.least[lane];
                greatest[lane] = greatest[lane].max(rank);
            }
        }
        greatest.iter().all(|&rank| rank <= most)
    }
}

/// Ranks in the table: lower by 32,768.
#[inline]
fn lowered(rank: u16) -> i16 {
    (rank ^ 0x8000) as i16
}
