//! Cells in blocks: those that differ on the last links alone stand together, in blocks of 8 or 16 places.

use super::network::{Network, MOST};

/// Where cells stand. Places of a block beyond its cells are not used.
#[derive(Clone)]
pub struct Blocks {
    /// The first of the links whose intervals number the cells of a block.
    pub split: usize,
    /// Cells of a block.
    pub inner: usize,
    /// Places of a block: 8 or 16.
    pub lanes: usize,
    /// Places in all.
    pub places: usize,
    /// Places from one interval of a link to its next.
    pub strides: [usize; MOST],
    /// 65,536 / inner and a little more: for cells below 4,096 the product's high part is the quotient.
    inverse: usize,
}

impl Blocks {
    pub fn of(network: &Network) -> Blocks {
        let (mut split, mut inner) = (network.links, 1);
        while split > 0 && inner * network.counts[split - 1] <= 16 {
            split -= 1;
            inner *= network.counts[split];
        }
        let lanes = if inner <= 8 { 8 } else { 16 };
        let strides = network.strides().map(|stride| match stride / inner {
            0 => stride,
            blocks => blocks * lanes,
        });
        Blocks {
            split,
            inner,
            lanes,
            places: network.cells / inner * lanes,
            strides,
            inverse: 65_536 / inner + 1,
        }
    }

    /// The place of a cell.
    #[inline]
    pub fn place(&self, cell: usize) -> usize {
        let block = (cell * self.inverse) >> 16;
        block * self.lanes + (cell - block * self.inner)
    }

    /// The cell at a place.
    pub fn cell(&self, place: usize) -> usize {
        place / self.lanes * self.inner + place % self.lanes
    }
}
