//! Generated H3 certificates and damaged copies tell likely slips, by the second checker alone.

mod load;
mod rules;

use compare::generate::bytes::bytes_of;
use compare::generate::{certificate, damaged, Size};
use compare::numbers::Numbers;
use load::Load;
use rules::{has_gap, is_faulty_mode, is_out_of_bounds, is_unlike, keeps_turn, Mode, Step};
use second::certificate::Kind;
use second::judge;

/// Does a load get another verdict by a slip?
type Tells = fn(&Load) -> bool;

/// Slips in rank against goal.
const GOALS: [(&str, Tells); 5] = [
    ("goal of the links", |load| {
        load.goals_differ(|certificate, _, link| certificate.links[link].goal)
    }),
    ("goal of the next mode", |load| {
        load.goals_differ(|certificate, entry, link| certificate.goal(entry.next.into(), link))
    }),
    ("goal of mode 0", |load| {
        load.goals_differ(|certificate, _, link| certificate.goal(0, link))
    }),
    ("the lower of both goals", |load| {
        load.goals_differ(|certificate, entry, link| {
            let own = certificate.goal(entry.mode.into(), link);
            own.min(certificate.links[link].goal)
        })
    }),
    ("the first link's goal", |load| {
        load.goals_differ(|certificate, entry, _| certificate.goal(entry.mode.into(), 0))
    }),
];

/// Slips in 24.
const TURNS: [(&str, Tells); 11] = [
    ("no 0 after the greatest", |load| {
        load.turns_differ(|step| match step.rank {
            0 => step.to == step.from + 1,
            _ => keeps_turn(step),
        })
    }),
    ("0 after 7 alone", |load| {
        load.turns_differ(|step| match step.rank {
            0 => step.to == (step.from + 1) % 8,
            _ => keeps_turn(step),
        })
    }),
    ("0 after the greatest that is listed", |load| {
        load.turns_differ(|step| {
            let greatest = step.listed;
            keeps_turn(Step { greatest, ..step })
        })
    }),
    ("rank 0 may stay", |load| {
        load.turns_differ(|step| keeps_turn(step) || step.rank == 0 && step.to == step.from)
    }),
    ("rank 0 passes to any other", |load| {
        load.turns_differ(|step| match step.rank {
            0 => step.to != step.from,
            _ => keeps_turn(step),
        })
    }),
    ("rank 0 not tested", |load| {
        load.turns_differ(|step| step.rank == 0 || keeps_turn(step))
    }),
    ("ranks above 0 not tested", |load| {
        load.turns_differ(|step| step.rank > 0 || keeps_turn(step))
    }),
    ("ranks above 0 may pass on", |load| {
        load.turns_differ(|step| keeps_turn(step) || keeps_turn(Step { rank: 0, ..step }))
    }),
    ("not tested", |load| load.turns_differ(|_| true)),
    ("tested before 23", |load| load.turn_comes_first(23)),
    ("tested before 22", |load| load.turn_comes_first(22)),
];

/// The last mode and those before it.
fn last(modes: &[Mode]) -> (&Mode, &[Mode]) {
    modes.split_last().expect("a mode")
}

/// Slips in MD records.
const MODES: [(&str, Tells); 12] = [
    ("numbers above 7", |load| {
        load.modes_differ(|modes, count, limits| {
            last(modes).0.number <= 7 && is_faulty_mode(modes, count, limits)
        })
    }),
    ("goals against cap", |load| {
        load.modes_differ(|modes, count, limits| {
            let (mode, before) = last(modes);
            let mut goals = mode.goals.iter().zip(&limits.cap);
            mode.signal >= limits.signals
                || mode.number > 7
                || goals.any(|(goal, cap)| goal > cap)
                || before.iter().any(|other| is_unlike(other, mode))
                || modes.len() == count && has_gap(modes)
        })
    }),
    ("missing signals", |load| {
        load.modes_differ(|modes, count, limits| {
            last(modes).0.signal < limits.signals && is_faulty_mode(modes, count, limits)
        })
    }),
    ("equal numbers not compared", |load| {
        load.modes_differ(|modes, count, limits| {
            is_out_of_bounds(last(modes).0, limits) || modes.len() == count && has_gap(modes)
        })
    }),
    ("compared with the first mode alone", |load| {
        load.modes_differ(|modes, count, limits| {
            let (mode, before) = last(modes);
            is_out_of_bounds(mode, limits)
                || before.first().is_some_and(|other| is_unlike(other, mode))
                || modes.len() == count && has_gap(modes)
        })
    }),
    ("compared with the mode before alone", |load| {
        load.modes_differ(|modes, count, limits| {
            let (mode, before) = last(modes);
            is_out_of_bounds(mode, limits)
                || before.last().is_some_and(|other| is_unlike(other, mode))
                || modes.len() == count && has_gap(modes)
        })
    }),
    ("compared by the first link alone", |load| {
        load.modes_differ(|modes, count, limits| {
            let (mode, before) = last(modes);
            let unlike = |other: &Mode| is_unlike(other, mode) && other.goals[0] != mode.goals[0];
            is_out_of_bounds(mode, limits)
                || before.iter().any(unlike)
                || modes.len() == count && has_gap(modes)
        })
    }),
    ("gaps not tested", |load| {
        load.modes_differ(|modes, _, limits| is_faulty_mode(modes, usize::MAX, limits))
    }),
    ("0 need not be used", |load| {
        load.modes_differ(|modes, count, limits| {
            let least = modes.iter().map(|mode| mode.number).min().unwrap_or(0);
            let is_used = |number: u8| modes.iter().any(|mode| mode.number == number);
            let greatest = modes.iter().map(|mode| mode.number).max().unwrap_or(0);
            is_faulty_mode(modes, usize::MAX, limits)
                || modes.len() == count && !(least..greatest).all(is_used)
        })
    }),
    ("0 alone must be used", |load| {
        load.modes_differ(|modes, count, limits| {
            is_faulty_mode(modes, usize::MAX, limits)
                || modes.len() == count && modes.iter().all(|mode| mode.number > 0)
        })
    }),
    ("a gap at the first mode that leaves one", |load| {
        load.modes_differ(|modes, _, limits| is_faulty_mode(modes, modes.len(), limits))
    }),
    ("as many numbers as modes", |load| {
        load.modes_differ(|modes, count, limits| {
            let greatest = modes.iter().map(|mode| mode.number).max().unwrap_or(0);
            is_faulty_mode(modes, count, limits)
                || modes.len() == count && usize::from(greatest) + 1 < count
        })
    }),
];

/// The rules of this test give the refusals of the second checker.
fn rightly(load: &Load) {
    assert!(!load.modes_differ(is_faulty_mode));
    assert!(!load.turns_differ(keeps_turn));
    let refused = load.refused_mode();
    let due = (load.right.report.number == 6).then_some(load.right.report.a as usize);
    if refused.is_some() || load.is_refused_at_a_mode() {
        assert_eq!(refused, due);
    }
    let refused = load.refused_turn();
    let due = (load.right.report.number == 24).then_some(load.right.report.a as usize);
    assert_eq!(refused, due);
}

#[test]
fn generated_loads_tell_slips() {
    let slips: Vec<(&str, Tells)> = [&GOALS[..], &TURNS, &MODES].concat();
    let mut told = vec![0; slips.len()];
    for part in 0..1_000 {
        let mut numbers = Numbers::of(19, part);
        let drawn = certificate(&mut numbers, Size::Small, Kind::H3);
        let mut all = vec![bytes_of(&drawn)];
        all.extend((0..3).map(|_| damaged(&drawn, &mut numbers)));
        for bytes in all {
            let right = judge(&bytes);
            let load = Load { bytes, right };
            rightly(&load);
            for (told, (_, tells)) in told.iter_mut().zip(&slips) {
                *told += u64::from(tells(&load));
            }
        }
    }
    for (told, (name, _)) in told.iter().zip(&slips) {
        println!("{name}: told by {told}");
    }
    for (told, (name, _)) in told.iter().zip(&slips) {
        assert!(*told >= 5, "{name}: told by {told}");
    }
}
