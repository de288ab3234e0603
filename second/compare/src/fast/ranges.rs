//! From image ends to the successor cells of each arrival box, and to the links that may exceed their cap.

use super::image::Ends;
use super::network::{Network, MOST};

/// The image of one box in intervals. Its successors: the first of them, and four bits a link that say how many
/// intervals more the range has.
#[derive(Clone, Copy, Default)]
pub struct Range {
    pub first: u32,
    pub shape: u32,
    /// Bit i is set where link i, not cut at cap, may exceed cap.
    pub over: u32,
}

/// Cuts, caps and arrivals over 10,000.
pub struct Steps {
    links: usize,
    boxes: usize,
    cuts: [[i32; 14]; MOST],
    caps: [i32; MOST],
    counts: [usize; MOST],
    strides: [u32; MOST],
    /// By link, then box.
    low: [[i32; MOST]; MOST],
    high: [[i32; MOST]; MOST],
}

impl Steps {
    /// First successors are given by their cells, or by other numbers if these strides are others.
    pub fn of(network: &Network, strides: &[usize; MOST]) -> Steps {
        let mut steps = Steps {
            links: network.links,
            boxes: network.boxes,
            cuts: [[0; 14]; MOST],
            caps: network.link.map(|link| 10_000 * i32::from(link.cap)),
            counts: network.counts,
            strides: strides.map(|stride| stride as u32),
            low: [[0; MOST]; MOST],
            high: [[0; MOST]; MOST],
        };
        for link in 0..network.links {
            for cut in 1..network.counts[link] {
                steps.cuts[link][cut - 1] = 10_000 * i32::from(network.edges[link][cut]);
            }
            for number in 0..network.boxes {
                steps.low[link][number] = 10_000 * i32::from(network.low[link][number]);
                steps.high[link][number] = 10_000 * i32::from(network.high[link][number]);
            }
        }
        steps
    }

    /// The image of every box.
    pub fn ranges(&self, ends: &Ends) -> [Range; MOST] {
        match self.boxes {
            1 => self.of_boxes::<1>(ends),
            2 => self.of_boxes::<2>(ends),
            3 | 4 => self.of_boxes::<4>(ends),
            _ => self.of_boxes::<8>(ends),
        }
    }

    /// An end stands in the interval whose number is that of the cuts it reaches: a lower edge belongs to its interval.
    /// No cut is as high as cap, so ends above cap need not be lowered.
    #[inline]
    fn of_boxes<const BOXES: usize>(&self, ends: &Ends) -> [Range; MOST] {
        let mut first = [0u32; BOXES];
        let mut shape = [0u32; BOXES];
        let mut over = [0u32; BOXES];
        for link in 0..self.links {
            let low: [i32; BOXES] = std::array::from_fn(|b| ends.low[link] + self.low[link][b]);
            let high: [i32; BOXES] = std::array::from_fn(|b| ends.high[link] + self.high[link][b]);
            let (stride, one) = (self.strides[link], 1 << (4 * link));
            for b in 0..BOXES {
                over[b] |= u32::from(high[b] > self.caps[link]) << link;
            }
            for &cut in &self.cuts[link][..self.counts[link] - 1] {
                for b in 0..BOXES {
                    let below = if low[b] >= cut { u32::MAX } else { 0 };
                    let reached = if high[b] >= cut { u32::MAX } else { 0 };
                    first[b] += below & stride;
                    shape[b] += (reached & !below) & one;
                }
            }
        }
        let mut ranges = [Range::default(); MOST];
        for b in 0..BOXES {
            ranges[b] = Range {
                first: first[b],
                shape: shape[b],
                over: over[b],
            };
        }
        ranges
    }
}
