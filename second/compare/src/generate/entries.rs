//! Entries that name what is missing, entries out of order, and those whose next mode remembers another signal or has
//! another goal number than is due.

mod modes;
mod ways;

pub use ways::{Beside, Name, Order, Way};

use super::bytes::bytes_of;
use crate::numbers::Numbers;
pub use modes::leave_goal;
use modes::{forget, leave_turn, mend, spoil_two};
use second::{Certificate, Report};

/// Bytes of an EN record, and of ZZ.
const ENTRY: usize = 9;
const END: usize = 2;

/// The bytes of a spoilt copy, and the refusal that is due if the certificate itself can be read.
pub fn spoilt(certificate: &Certificate, way: Way, numbers: &mut Numbers) -> (Vec<u8>, Report) {
    let mut copy = certificate.clone();
    let at = spoil(&mut copy, way, numbers);
    let bytes = bytes_of(&copy);
    let place = bytes.len() - END - ENTRY * (copy.entries.len() - at);
    (bytes, Report::at(way.number(), place))
}

/// Spoils the entries, of which there is at least one, and tells which of them is to be refused.
pub fn spoil(copy: &mut Certificate, way: Way, numbers: &mut Numbers) -> usize {
    match way {
        Way::Missing(name) => {
            let at = numbers.below(copy.entries.len());
            misname(copy, at, name);
            at
        }
        Way::OutOfOrder(order) => disorder(copy, order, 0, numbers),
        Way::Both(order) => {
            let at = disorder(copy, order, 0, numbers);
            // With a missing mode the pair is out of order only where its cell falls.
            let falls = copy.entries[at].cell < copy.entries[at - 1].cell;
            let names = [Name::Signal, Name::Next, Name::Mode];
            misname(copy, at, numbers.pick(&names[..if falls { 3 } else { 2 }]));
            at
        }
        Way::Then(order) => {
            let (at, later) = disorder_before(copy, order, numbers);
            let names = [Name::Cell, Name::Mode, Name::Signal, Name::Next];
            misname(copy, later, numbers.pick(&names));
            at
        }
        Way::Forgotten(beside) => modes::spoil(copy, forget, beside, numbers),
        Way::OutOfTurn(beside) => modes::spoil(copy, leave_turn, beside, numbers),
        Way::ForgottenOutOfTurn => {
            let at = modes::spoil(copy, leave_turn, Beside::Nothing, numbers);
            forget(copy, at, numbers);
            at
        }
        Way::ForgottenThen => spoil_two(copy, [forget, leave_turn], numbers),
        Way::OutOfTurnThen => spoil_two(copy, [leave_turn, forget], numbers),
    }
}

/// Puts an entry out of order; tells which, and one behind it.
fn disorder_before(copy: &mut Certificate, order: Order, numbers: &mut Numbers) -> (usize, usize) {
    let at = disorder(copy, order, 1, numbers);
    if at + 1 == copy.entries.len() {
        copy.entries.push(copy.entries[at].clone());
    }
    let later = numbers.between(at as u64 + 1, copy.entries.len() as u64 - 1);
    (at, later as usize)
}

/// Gives a name of an entry its least missing value.
fn misname(copy: &mut Certificate, at: usize, name: Name) {
    let cells = cells(copy) as u16;
    let entry = &mut copy.entries[at];
    match name {
        Name::Cell => entry.cell = cells,
        Name::Mode => entry.mode = copy.modes,
        Name::Signal => entry.signal = copy.signals.len() as u8,
        Name::Next => entry.next = copy.modes,
    }
}

fn cells(copy: &Certificate) -> usize {
    copy.cuts.iter().map(|cuts| cuts.len() + 1).product()
}

/// Puts an entry out of order and tells which. It has so many entries behind it if there are enough in all. A lone
/// entry gets a second one.
fn disorder(copy: &mut Certificate, order: Order, behind: usize, numbers: &mut Numbers) -> usize {
    if copy.entries.len() == 1 {
        copy.entries.push(copy.entries[0].clone());
    }
    let last = copy.entries.len() - 1;
    let at = numbers.between(1, last.saturating_sub(behind) as u64) as usize;
    match order {
        Order::Swapped => copy.entries.swap(at - 1, at),
        Order::Repeated => repeat(copy, at),
        Order::LowerMode => lower_mode(copy, at, numbers),
        Order::LowerCell => lower_cell(copy, at, numbers),
    }
    at
}

fn repeat(copy: &mut Certificate, at: usize) {
    copy.entries[at].cell = copy.entries[at - 1].cell;
    copy.entries[at].mode = copy.entries[at - 1].mode;
}

/// Makes the modes as many as this at least; new ones remember the first signal and have the first goal.
fn need_modes(copy: &mut Certificate, modes: u8) {
    copy.modes = copy.modes.max(modes);
    if copy.kind.has_starts() && copy.memory.len() < copy.modes.into() {
        copy.memory.resize(copy.modes.into(), 0);
    }
    if let Some(goal) = copy.goals.first().cloned() {
        copy.goals.resize(copy.memory.len(), goal);
    }
}

/// Gives an entry another mode. Where modes have goals, it then keeps to that mode.
fn pass_to_mode(copy: &mut Certificate, at: usize, mode: u8) {
    let is_other = copy.entries[at].mode != mode;
    copy.entries[at].mode = mode;
    if is_other && copy.kind.has_goals() {
        mend(copy, at);
    }
}

/// The entry before it passes to mode 1 if it has mode 0.
fn lower_mode(copy: &mut Certificate, at: usize, numbers: &mut Numbers) {
    if copy.entries[at - 1].mode == 0 {
        need_modes(copy, 2);
        pass_to_mode(copy, at - 1, 1);
    }
    repeat(copy, at);
    let most = copy.entries[at].mode - 1;
    copy.entries[at].mode = numbers.between(0, most.into()) as u8;
}

/// The entry before it passes to the next cell if its cell is the first or its mode the last.
fn lower_cell(copy: &mut Certificate, at: usize, numbers: &mut Numbers) {
    let modes = copy.modes.max(2);
    let before = &copy.entries[at - 1];
    let (cell, mode) = match before.cell == 0 || before.mode >= modes - 1 {
        true => (before.cell.saturating_add(1), 0),
        false => (before.cell, before.mode),
    };
    if usize::from(cell) >= cells(copy) {
        return repeat(copy, at);
    }
    need_modes(copy, modes);
    copy.entries[at - 1].cell = cell;
    pass_to_mode(copy, at - 1, mode);
    copy.entries[at].cell = numbers.wide(0, cell - 1);
    copy.entries[at].mode = numbers.wide(u16::from(mode) + 1, u16::from(modes) - 1) as u8;
}
