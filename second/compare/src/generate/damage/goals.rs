//! Changes of goals, of their numbers and of the turn that entries keep.

use super::moved;
use crate::generate::entries::{leave_goal, spoil, Beside, Way};
use crate::generate::goals::greatest;
use crate::numbers::Numbers;
use second::Certificate;

/// One change.
pub fn change(copy: &mut Certificate, numbers: &mut Numbers) {
    if copy.goals.is_empty() {
        return;
    }
    match numbers.below(12) {
        0..=2 => change_amount(copy, numbers),
        3 | 4 => change_number(copy, numbers),
        5 => leave_gap(copy, numbers),
        6 => change_length(copy, numbers),
        7 | 8 => {
            let at = numbers.below(copy.entries.len());
            leave_goal(copy, at, numbers);
        }
        _ => leave_turn(copy, numbers),
    }
}

/// An amount of one mode, or of all modes of its number, at and beyond its ends.
fn change_amount(copy: &mut Certificate, numbers: &mut Numbers) {
    let at = numbers.below(copy.goals.len());
    let Some(last) = copy.goals[at].amounts.len().checked_sub(1) else {
        return;
    };
    let link = numbers.below(last + 1);
    let safe = copy.links.get(link).map_or(0, |link| link.safe);
    let amount = &mut copy.goals[at].amounts[link];
    *amount = match numbers.below(7) {
        0 => safe.saturating_add(1),
        1 => u16::MAX,
        2 => moved(numbers, *amount),
        3 => safe,
        _ => numbers.wide(0, safe),
    };
    if numbers.chance(50) {
        let goal = copy.goals[at].clone();
        let same = copy.goals.iter_mut().filter(|g| g.number == goal.number);
        same.for_each(|other| *other = goal.clone());
    }
}

/// The number of one mode: another one that is used, the next unused one, one further on, or none that there is.
fn change_number(copy: &mut Certificate, numbers: &mut Numbers) {
    let greatest = greatest(copy);
    let at = numbers.below(copy.goals.len());
    let number = &mut copy.goals[at].number;
    *number = match numbers.below(8) {
        0..=2 => numbers.between(0, greatest.into()) as u8,
        3 => greatest.wrapping_add(1),
        4 => greatest.wrapping_add(2),
        5 => number.wrapping_add(1),
        6 => 8,
        _ => numbers.pick(&[7, 9, 128, 255]),
    };
}

/// Numbers with a gap: all of them one higher, all of them 1, those from some number on one higher, or the greatest
/// one higher.
fn leave_gap(copy: &mut Certificate, numbers: &mut Numbers) {
    let greatest = greatest(copy);
    let from = numbers.between(0, greatest.into()) as u8;
    let goal = copy.goals[0].clone();
    let way = numbers.below(4);
    for other in &mut copy.goals {
        let next = other.number.wrapping_add(1);
        match way {
            0 => other.number = next,
            1 => (other.number, other.amounts) = (1, goal.amounts.clone()),
            2 if other.number >= from => other.number = next,
            3 if other.number == greatest => other.number = next,
            _ => (),
        }
    }
}

/// A record that is too short or too long by an amount, one that has no goal, and goals of two modes that are swapped.
fn change_length(copy: &mut Certificate, numbers: &mut Numbers) {
    let at = numbers.below(copy.goals.len());
    match numbers.below(4) {
        0 => drop(copy.goals[at].amounts.pop()),
        1 => copy.goals[at].amounts.push(0),
        2 => copy.goals.truncate(at),
        _ => copy.goals.swap(0, at),
    }
}

/// Another goal number than is due, alone or beside other faults.
fn leave_turn(copy: &mut Certificate, numbers: &mut Numbers) {
    let any = numbers.pick(&Beside::all());
    let beside = numbers.pick(&[Beside::Nothing, Beside::Nothing, any]);
    let two = [
        Way::ForgottenOutOfTurn,
        Way::ForgottenThen,
        Way::OutOfTurnThen,
    ];
    let way = match numbers.chance(80) {
        true => Way::OutOfTurn(beside),
        false => numbers.pick(&two),
    };
    spoil(copy, way, numbers);
}
