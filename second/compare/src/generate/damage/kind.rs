//! Changes of the kind.

use crate::generate::goals::{to_h3, without_goals};
use crate::generate::starts::{to_h2, to_hd};
use crate::numbers::Numbers;
use second::certificate::{Certificate, Kind};

/// Another kind: whole, or its mark with start flows, memories or goals as they were before.
pub fn change(copy: &mut Certificate, numbers: &mut Numbers) {
    let before = copy.clone();
    let others: Vec<Kind> = Kind::ALL.into_iter().filter(|&k| k != copy.kind).collect();
    let other = numbers.pick(&others);
    match other {
        Kind::Hd => to_hd(copy),
        Kind::H2 | Kind::H3 => {
            match copy.kind {
                Kind::Hd => to_h2(copy, numbers),
                Kind::H2 | Kind::H3 => without_goals(copy),
            }
            if other == Kind::H3 {
                to_h3(copy, numbers);
            }
        }
    }
    match numbers.below(8) {
        0 => {
            copy.links = before.links;
            copy.memory = before.memory;
            copy.goals = before.goals;
        }
        1 => copy.memory = before.memory,
        2 => copy.links = before.links,
        3 => copy.goals = before.goals,
        _ => (),
    }
}
