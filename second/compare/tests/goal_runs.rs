//! Runs of accepted generated H3 certificates in exact fractions: goals are met in turn, as document 02 says.

#[path = "../../tests/common/run.rs"]
mod run;

use compare::generate::{bytes::bytes_of, certificate, Size};
use compare::numbers::Numbers;
use run::{first_queues, passes, Moment, Run};
use second::certificate::Kind;
use second::grid::cells;
use second::{judge, Certificate};

/// Runs of each certificate, and most steps of a run.
const RUNS: usize = 6;
const STEPS: usize = 60;

/// What the runs reached.
#[derive(Debug, Default)]
struct Reached {
    certificates: usize,
    steps: usize,
    /// Steps that passed on to the next goal number, and of those the ones to 0 after a greater one.
    passed: usize,
    wrapped: usize,
    /// Moments with a rank above 0 whose last moment lies within the list.
    bounded: usize,
    /// Those of them that come after a step that passed on.
    later: usize,
    /// Steps that followed another signal than their own.
    changes: usize,
}

impl Reached {
    fn add(&mut self, certificate: &Certificate, moments: &[Moment]) {
        self.steps += moments.len() - 1;
        self.passed += passes(certificate, moments);
        let number = |moment: &Moment| certificate.goals[usize::from(moment.entry.mode)].number;
        let pairs = moments.windows(2);
        self.wrapped += pairs
            .filter(|pair| number(&pair[1]) < number(&pair[0]))
            .count();
        let mut has_passed = false;
        for (at, moment) in moments.iter().enumerate() {
            let rank = usize::from(moment.entry.rank);
            let is_bounded = rank > 0 && at + rank < moments.len();
            self.bounded += usize::from(is_bounded);
            self.later += usize::from(is_bounded && has_passed);
            has_passed |= rank == 0;
            let before = certificate.memory[usize::from(moment.entry.mode)];
            self.changes += usize::from(before != moment.entry.signal);
        }
    }
}

#[test]
fn goals_are_met_in_turn() {
    let mut reached = Reached::default();
    for part in 0..1_000 {
        let mut numbers = Numbers::of(18, part);
        let drawn = certificate(&mut numbers, Size::Small, Kind::H3);
        if !judge(&bytes_of(&drawn)).is_accepted() {
            continue;
        }
        reached.certificates += 1;
        let cells = cells(&drawn);
        for _ in 0..RUNS {
            let first = numbers.pick(&drawn.entries);
            let queues = first_queues(&cells[usize::from(first.cell)], &mut numbers);
            let run = Run::begin(&drawn, &cells, queues, first.mode);
            let moments = run.moments(STEPS, &mut numbers);
            reached.add(&drawn, &moments);
        }
    }
    println!("{reached:?}");
    assert!(reached.certificates > 900, "{reached:?}");
    assert!(reached.steps > 100_000, "{reached:?}");
    assert!(reached.passed > 100_000, "{reached:?}");
    assert!(reached.wrapped > 20_000, "{reached:?}");
    assert!(reached.bounded > 2_000, "{reached:?}");
    assert!(reached.later > 1_000, "{reached:?}");
    assert!(reached.changes > 20_000, "{reached:?}");
}
