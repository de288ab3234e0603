//! The cells that are drawn: all intervals of one or two links, the first interval of every other.

use crate::certificate::Certificate;
use crate::grid::{intervals, Interval};

/// One axis: a link, its intervals, and how far apart neighbouring cells are numbered.
#[derive(Clone, Debug, PartialEq, Eq)]
pub struct Axis {
    pub link: usize,
    pub intervals: Vec<Interval>,
    pub stride: usize,
}

impl Axis {
    fn of(certificate: &Certificate, link: usize) -> Axis {
        let later = &certificate.cuts[link + 1..];
        Axis {
            link,
            intervals: link_intervals(certificate, link),
            stride: later.iter().map(|cuts| cuts.len() + 1).product(),
        }
    }
}

/// The intervals of a link.
pub fn link_intervals(certificate: &Certificate, link: usize) -> Vec<Interval> {
    intervals(certificate.links[link].cap, &certificate.cuts[link])
}

#[derive(Clone, Debug, PartialEq, Eq)]
pub struct Slice {
    pub across: Axis,
    /// None where the certificate has one link.
    pub up: Option<Axis>,
}

impl Slice {
    /// The slice of two links: those named, else the first two.
    pub fn of(certificate: &Certificate, named: Option<[usize; 2]>) -> Result<Slice, String> {
        let count = certificate.links.len();
        if let Some(absent) = named.iter().flatten().find(|&&link| link >= count) {
            return Err(format!(
                "link {absent} is not there: links are 0 to {}",
                count - 1
            ));
        }
        let [across, up] = named.unwrap_or([0, 1]);
        if across == up {
            return Err(format!("link {across} cannot be drawn against itself"));
        }
        Ok(Slice {
            across: Axis::of(certificate, across),
            up: (count > 1).then(|| Axis::of(certificate, up)),
        })
    }

    pub fn columns(&self) -> usize {
        self.across.intervals.len()
    }

    pub fn rows(&self) -> usize {
        self.up.as_ref().map_or(1, |axis| axis.intervals.len())
    }

    /// The number of the cell in this column and row, counted from the lowest queues.
    pub fn cell(&self, column: usize, row: usize) -> usize {
        let stride = self.up.as_ref().map_or(0, |axis| axis.stride);
        column * self.across.stride + row * stride
    }

    /// Column and row of a cell, if it is drawn.
    pub fn place(&self, cell: usize) -> Option<(usize, usize)> {
        let places = (0..self.columns()).flat_map(|c| (0..self.rows()).map(move |r| (c, r)));
        places
            .into_iter()
            .find(|&(column, row)| self.cell(column, row) == cell)
    }

    /// Is this link on an axis?
    pub fn has(&self, link: usize) -> bool {
        let up = self.up.as_ref().map(|axis| axis.link);
        self.across.link == link || up == Some(link)
    }
}
