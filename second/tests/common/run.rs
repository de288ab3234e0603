//! Runs in exact fractions.

use super::Numbers;
use second::certificate::{Certificate, Entry, Greens};
use second::flow::{next_queues, Amounts, FINER};
use second::grid::{Cell, Interval};

/// First queues and arrivals are twelfths of a vehicle.
const PARTS: u64 = 12;
/// The flow rule has room for this scale.
const MOST_SCALE: i128 = 10i128.pow(24);

/// A run of exact steps: queues over a scale, the mode and the signal last shown.
pub struct Run<'a> {
    pub certificate: &'a Certificate,
    pub cells: &'a [Cell],
    pub queues: Amounts,
    pub scale: i128,
    pub mode: u8,
    pub shown: u8,
}

/// What matters of a moment: the entry in force, and whether each mode's goal is met.
#[derive(Clone, Debug, PartialEq, Eq)]
pub struct Moment {
    pub entry: Entry,
    pub met: Vec<bool>,
}

/// Any queues of a cell, in twelfths.
pub fn first_queues(cell: &[Interval], numbers: &mut Numbers) -> Amounts {
    let mut queues = [0; 8];
    for (queue, interval) in queues.iter_mut().zip(cell) {
        let (low, high) = (u64::from(interval.low), u64::from(interval.high));
        let most = PARTS * high - u64::from(!interval.last);
        *queue = numbers.between(PARTS * low, most).into();
    }
    queues
}

impl<'a> Run<'a> {
    /// A run that begins with queues in twelfths, after the signal that the first mode remembers.
    pub fn begin(
        certificate: &'a Certificate,
        cells: &'a [Cell],
        queues: Amounts,
        mode: u8,
    ) -> Run<'a> {
        Run {
            certificate,
            cells,
            queues,
            scale: PARTS.into(),
            mode,
            shown: certificate.memory[usize::from(mode)],
        }
    }

    /// The entry in force.
    pub fn entry(&self) -> Option<&'a Entry> {
        let holds = |cell: &Cell| {
            let mut links = cell.iter().zip(&self.queues);
            links.all(|(interval, &queue)| interval.holds(queue, self.scale))
        };
        let cell = self.cells.iter().position(holds)?;
        let mut entries = self.certificate.entries.iter();
        entries.find(|entry| usize::from(entry.cell) == cell && entry.mode == self.mode)
    }

    /// Do all queues keep to a limit of their links?
    pub fn keeps_to(&self, limits: impl Iterator<Item = u16>) -> bool {
        let mut links = self.queues.iter().zip(limits);
        links.all(|(&queue, limit)| queue <= i128::from(limit) * self.scale)
    }

    /// One step with arrivals of some box, in twelfths: often the most, or the least, on every link.
    pub fn step(&mut self, entry: &Entry, numbers: &mut Numbers) {
        self.widen();
        let boxes = &self.certificate.arrivals;
        let chosen = &boxes[numbers.between(0, boxes.len() as u64 - 1) as usize];
        let style = numbers.between(0, 3);
        let mut arrivals = [0; 8];
        for (come, arrival) in arrivals.iter_mut().zip(chosen) {
            let (low, high) = (u64::from(arrival.low), u64::from(arrival.high));
            let parts = match style {
                0 | 1 => PARTS * high,
                2 => PARTS * low,
                _ => numbers.between(PARTS * low, PARTS * high),
            };
            *come = i128::from(parts) * (self.scale / i128::from(PARTS));
        }
        let signals = &self.certificate.signals;
        let greens = Greens {
            now: signals[usize::from(entry.signal)],
            before: signals[usize::from(self.shown)],
        };
        self.queues = next_queues(
            self.certificate,
            greens,
            &self.queues,
            &arrivals,
            self.scale,
        );
        self.scale *= FINER;
        self.reduce();
        (self.mode, self.shown) = (entry.next, entry.signal);
    }

    /// Brings the scale to a multiple of twelve.
    fn widen(&mut self) {
        let factor = i128::from(PARTS) / common_divisor(self.scale, PARTS.into());
        self.scale *= factor;
        self.queues = self.queues.map(|queue| queue * factor);
    }

    /// Brings queues and scale to lowest terms.
    fn reduce(&mut self) {
        let divisor = self
            .queues
            .iter()
            .fold(self.scale, |divisor, &queue| common_divisor(divisor, queue));
        self.scale /= divisor;
        self.queues = self.queues.map(|queue| queue / divisor);
    }

    /// The moment, which must have an entry in force and queues that are safe.
    fn moment(&self) -> Moment {
        let links = &self.certificate.links;
        let entry = self.entry().expect("an entry in force").clone();
        assert!(self.keeps_to(links.iter().map(|link| link.safe)));
        let met = (0..usize::from(self.certificate.modes)).map(|mode| {
            let goals = (0..links.len()).map(|link| self.certificate.goal(mode, link));
            self.keeps_to(goals)
        });
        Moment {
            met: met.collect(),
            entry,
        }
    }

    /// So many steps, or as many as the fractions have room for.
    pub fn moments(mut self, steps: usize, numbers: &mut Numbers) -> Vec<Moment> {
        let mut moments = vec![self.moment()];
        while moments.len() <= steps && self.scale * i128::from(PARTS) <= MOST_SCALE {
            let last = &moments[moments.len() - 1];
            self.step(&last.entry, numbers);
            moments.push(self.moment());
        }
        moments
    }
}

fn common_divisor(one: i128, other: i128) -> i128 {
    match other {
        0 => one,
        _ => common_divisor(other, one % other),
    }
}

/// Holds the moments of a run against document 02, 6/14; tells how often a goal number was passed on.
/// From every moment the goal of the mode then held is met within the rank then in force, as far as the list reaches.
/// The goal number stays until a moment with rank 0, from which the step passes to the next one, 0 after the greatest.
pub fn passes(certificate: &Certificate, moments: &[Moment]) -> usize {
    let number = |moment: &Moment| certificate.goals[usize::from(moment.entry.mode)].number;
    let greatest = certificate.goals.iter().map(|goal| goal.number).max();
    for (at, moment) in moments.iter().enumerate() {
        let mode = usize::from(moment.entry.mode);
        let last = at + usize::from(moment.entry.rank);
        if let Some(within) = moments.get(at..=last) {
            assert!(within.iter().any(|m| m.met[mode]), "{at} of {moments:?}");
        }
    }
    let mut passed = 0;
    for pair in moments.windows(2) {
        let (held, next) = (number(&pair[0]), number(&pair[1]));
        if pair[0].entry.rank > 0 {
            assert_eq!(next, held, "{pair:?}");
        } else {
            let due = if Some(held) == greatest { 0 } else { held + 1 };
            assert_eq!(next, due, "{pair:?}");
            passed += 1;
        }
    }
    passed
}
