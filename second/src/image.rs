//! The image of a closed cell under a signal, the one shown before it, and an arrival box.

use crate::certificate::{Arrival, Certificate, Greens, MOST_LINKS};
use crate::flow::{caps, cut, uncut_queues, Amounts, FINER};
use crate::grid::Interval;

/// Least and greatest next queue of each link, over `FINER`.
#[derive(Clone, Debug, PartialEq, Eq)]
pub struct Image {
    pub low: Amounts,
    pub high: Amounts,
    /// Does the next queue of each link, not cut at cap, exceed cap for some queues and arrivals?
    pub over: [bool; MOST_LINKS],
}

impl Image {
    /// Is the cell a successor: do its intervals meet the closed image?
    pub fn meets(&self, cell: &[Interval]) -> bool {
        cell.iter()
            .enumerate()
            .all(|(link, interval)| interval.meets(self.low[link], self.high[link], FINER))
    }

    /// Is there a link whose next queue may exceed cap?
    pub fn overflows(&self) -> bool {
        self.over.contains(&true)
    }

    /// Makes room for one more point, which is not cut at cap yet.
    fn stretch(&mut self, uncut: &Amounts, caps: &Amounts) {
        for (link, &queue) in cut(uncut, caps).iter().enumerate() {
            self.low[link] = self.low[link].min(queue);
            self.high[link] = self.high[link].max(queue);
            self.over[link] |= uncut[link] > caps[link];
        }
    }
}

/// One end of every interval: bit i of `corner` set means the high end of link i.
fn corner_queues(cell: &[Interval], corner: u32) -> Amounts {
    let mut queues = [0; MOST_LINKS];
    for (link, interval) in cell.iter().enumerate() {
        let high_end = (corner >> link) & 1 == 1;
        let end = if high_end {
            interval.high
        } else {
            interval.low
        };
        queues[link] = end.into();
    }
    queues
}

/// The least and the greatest arrivals of a box.
fn arrival_ends(arrivals: &[Arrival]) -> [Amounts; 2] {
    let mut ends = [[0; MOST_LINKS]; 2];
    for (link, arrival) in arrivals.iter().enumerate() {
        ends[0][link] = arrival.low.into();
        ends[1][link] = arrival.high.into();
    }
    ends
}

/// The image, by all corners of the closed cell with the least and the greatest arrivals.
/// A network that passes both conditions is monotone in each queue, before the cut at cap too, so corners suffice.
/// Start flows are at most the flows, so it is monotone with them as well.
/// Arrivals of a link move its own next queue alone, and up.
pub fn image(
    certificate: &Certificate,
    greens: Greens,
    cell: &[Interval],
    arrivals: &[Arrival],
) -> Image {
    let ends = arrival_ends(arrivals);
    let caps = caps(certificate, 1);
    let step = |corner, arrivals| {
        let queues = corner_queues(cell, corner);
        uncut_queues(certificate, greens, &queues, arrivals, 1)
    };
    let first = cut(&step(0, &ends[0]), &caps);
    let mut image = Image {
        low: first,
        high: first,
        over: [false; MOST_LINKS],
    };
    for corner in 0..1 << cell.len() {
        for end in &ends {
            image.stretch(&step(corner, end), &caps);
        }
    }
    image
}
