//! Random arrival boxes.

use crate::numbers::Numbers;
use second::certificate::{Arrival, Certificate, Greens, Link, MOST_AMOUNT, MOST_LINKS};
use second::flow::{next_queues, FINER};
use second::grid::{intervals, Cell};
use second::image::image;

const NONE: Arrival = Arrival { low: 0, high: 0 };

/// How many vehicles come.
#[derive(Clone, Copy)]
enum Style {
    /// Up to cap on every link.
    Wide,
    /// As many as a link just has room for, or one more.
    Brim,
    /// Such that green links mostly cope: a part of their flow.
    Part(u16),
}

/// Adds arrival boxes.
pub fn add_arrivals(certificate: &mut Certificate, numbers: &mut Numbers) {
    let boxes = 1 + numbers.weighed(&[45, 25, 10, 6, 4, 4, 3, 3]);
    let part = numbers.pick(&[2, 4, 4, 8, 8]);
    let style = match numbers.below(100) {
        0..=3 => Style::Wide,
        4..=33 => Style::Brim,
        _ => Style::Part(part),
    };
    for _ in 0..boxes {
        let arrivals = match style {
            Style::Wide => each(certificate, |link| arrival(numbers, link.cap)),
            Style::Brim => brim(certificate, numbers),
            Style::Part(part) => each(certificate, |link| match link.tail {
                0 => arrival(numbers, link.flow / part),
                _ if numbers.chance(20) => arrival(numbers, link.flow / 8),
                _ => NONE,
            }),
        };
        certificate.arrivals.push(arrivals);
    }
}

fn each(certificate: &Certificate, arrival: impl FnMut(&Link) -> Arrival) -> Vec<Arrival> {
    certificate.links.iter().map(arrival).collect()
}

fn arrival(numbers: &mut Numbers, most: u16) -> Arrival {
    let high = match numbers.below(3) {
        0 => most,
        _ => numbers.wide(0, most),
    };
    up_to(numbers, high)
}

/// Arrivals with this greatest number.
fn up_to(numbers: &mut Numbers, high: u16) -> Arrival {
    let low = match numbers.below(3) {
        0 => 0,
        1 => high,
        _ => numbers.wide(0, high),
    };
    Arrival { low, high }
}

/// One link gets as many as it just has room for, or one more; of the others few get any.
fn brim(certificate: &Certificate, numbers: &mut Numbers) -> Vec<Arrival> {
    let is_like = match numbers.below(6) {
        0 => Filled::is_any,
        1 | 2 => Filled::is_fraction,
        _ => Filled::is_low_beside,
    };
    let mut filled = any_filled(certificate, numbers);
    for _ in 0..30 {
        if is_like(&filled) {
            break;
        }
        filled = any_filled(certificate, numbers);
    }
    let mut arrivals = each(certificate, |link| match link.tail {
        0 if numbers.chance(15) => arrival(numbers, link.flow / 8),
        _ => NONE,
    });
    let cap = i128::from(certificate.links[filled.link].cap);
    let room = (cap * FINER - filled.queue) / FINER;
    let high = room + numbers.pick(&[0, 1, 1]);
    arrivals[filled.link] = up_to(numbers, high.clamp(0, MOST_AMOUNT.into()) as u16);
    arrivals
}

/// A link, and its greatest next queue from some cell under some signal, after any one, without arrivals, over `FINER`.
struct Filled {
    link: usize,
    queue: i128,
    /// The same with every queue at its upper edge.
    upper: i128,
}

impl Filled {
    fn is_any(&self) -> bool {
        true
    }

    fn is_fraction(&self) -> bool {
        self.queue % FINER != 0
    }

    /// Does it come from the lower edge of a link beside it?
    fn is_low_beside(&self) -> bool {
        self.queue > self.upper
    }
}

fn any_filled(certificate: &Certificate, numbers: &mut Numbers) -> Filled {
    let cell = any_cell(certificate, numbers);
    let now = numbers.pick(&certificate.signals);
    let greens = match certificate.kind.has_starts() {
        false => Greens::same(now),
        true => Greens {
            now,
            before: numbers.pick(&certificate.signals),
        },
    };
    let link = any_link(certificate, numbers);
    let image = image(certificate, greens, &cell, &vec![NONE; cell.len()]);
    let mut upper = [0; MOST_LINKS];
    for (queue, interval) in upper.iter_mut().zip(&cell) {
        *queue = interval.high.into();
    }
    Filled {
        link,
        queue: image.high[link],
        upper: next_queues(certificate, greens, &upper, &[0; MOST_LINKS], 1)[link],
    }
}

/// A link, mostly one that may be full when the goal is met: a policy then copes with its arrivals.
fn any_link(certificate: &Certificate, numbers: &mut Numbers) -> usize {
    let links = &certificate.links;
    let may_be_full = |&link: &usize| links[link].goal == links[link].cap;
    let open: Vec<usize> = (0..links.len()).filter(may_be_full).collect();
    if open.is_empty() || numbers.chance(20) {
        return numbers.below(links.len());
    }
    numbers.pick(&open)
}

fn any_cell(certificate: &Certificate, numbers: &mut Numbers) -> Cell {
    let links = certificate.links.iter().zip(&certificate.cuts);
    links
        .map(|(link, cuts)| numbers.pick(&intervals(link.cap, cuts)))
        .collect()
}
