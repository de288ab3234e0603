//! Entries that may overflow, of generated certificates, by the second checker alone: there are certificates with none,
//! with some and with all, and those that tell likely slips.

use compare::generate::{bytes::bytes_of, certificate, Size};
use compare::numbers::Numbers;
use compare::tally::Overflows;
use second::certificate::{Entry, Kind};
use second::flow::{caps, uncut_queues, Amounts, FINER};
use second::grid::{cells, Cell};
use second::{judge, Certificate};

/// Next queues, not cut at cap, from a corner of a cell with the least or the greatest arrivals of a box.
struct Point {
    /// Are all queues at their upper edges?
    is_upper: bool,
    is_greatest: bool,
    arrivals: usize,
    next: Vec<(i128, i128)>,
}

impl Point {
    /// Is there a link whose next queue and cap are like this?
    fn any(&self, like: impl Fn(i128, i128) -> bool) -> bool {
        self.next.iter().any(|&(queue, cap)| like(queue, cap))
    }

    fn exceeds(&self) -> bool {
        self.any(|queue, cap| queue > cap)
    }
}

/// Every point of an entry.
fn points(certificate: &Certificate, entry: &Entry, cell: &Cell) -> Vec<Point> {
    let greens = certificate.greens(entry);
    let caps = caps(certificate, 1);
    let mut points = Vec::new();
    for (arrivals, pairs) in certificate.arrivals.iter().enumerate() {
        for corner in 0..1 << cell.len() {
            for is_greatest in [false, true] {
                let (mut queues, mut come): (Amounts, Amounts) = ([0; 8], [0; 8]);
                for (link, side) in cell.iter().enumerate() {
                    let ends = [side.low, side.high];
                    queues[link] = ends[corner >> link & 1].into();
                    let ends = [pairs[link].low, pairs[link].high];
                    come[link] = ends[usize::from(is_greatest)].into();
                }
                let next = uncut_queues(certificate, greens, &queues, &come, 1);
                points.push(Point {
                    is_upper: corner + 1 == 1 << cell.len(),
                    is_greatest,
                    arrivals,
                    next: next.into_iter().zip(caps).take(cell.len()).collect(),
                });
            }
        }
    }
    points
}

type Test = fn(&Point) -> bool;

/// The right test of a point, and likely slips.
const TESTS: [(&str, Test); 6] = [
    ("right", Point::exceeds),
    ("exactly cap counts", |p| p.any(|queue, cap| queue >= cap)),
    ("rounded down", |p| {
        p.any(|queue, cap| queue / FINER > cap / FINER)
    }),
    ("upper edges alone", |p| p.is_upper && p.exceeds()),
    ("least arrivals", |p| !p.is_greatest && p.exceeds()),
    ("first box alone", |p| p.arrivals == 0 && p.exceeds()),
];

/// How many entries have a point that passes, by test.
fn counts(certificate: &Certificate) -> [u64; TESTS.len()] {
    let cells = cells(certificate);
    let mut counts = [0; TESTS.len()];
    for entry in &certificate.entries {
        let points = points(certificate, entry, &cells[usize::from(entry.cell)]);
        for (count, (_, test)) in counts.iter_mut().zip(TESTS) {
            *count += u64::from(points.iter().any(test));
        }
    }
    counts
}

#[test]
fn generated_certificates_tell_slips() {
    let mut overflows = Overflows::default();
    let mut told = [0; TESTS.len()];
    for part in 0..1_000 {
        let kind = Kind::ALL[part as usize % 3];
        let drawn = certificate(&mut Numbers::of(12, part), Size::Small, kind);
        let verdict = judge(&bytes_of(&drawn));
        if verdict.is_accepted() {
            overflows.add(verdict.overflows, drawn.entries.len() as u64);
            let counts = counts(&drawn);
            assert_eq!(counts[0], verdict.overflows);
            for (told, count) in told.iter_mut().zip(counts) {
                *told += u64::from(count != verdict.overflows);
            }
        }
    }
    for (kind, count) in [
        ("none", overflows.none),
        ("some", overflows.some),
        ("all", overflows.all),
    ] {
        assert!(count > 100, "few with {kind}: {overflows}");
    }
    for (told, (name, _)) in told.iter().zip(TESTS).skip(1) {
        assert!(*told >= 10, "{name}: told by {told}");
    }
}
