//! Entries whose next mode remembers another signal, or has another goal number than their rank asks for.

use super::{disorder, disorder_before, misname, Beside};
use crate::numbers::Numbers;
use second::certificate::{Certificate, Entry};

/// What is done to one entry.
pub type Fault = fn(&mut Certificate, usize, &mut Numbers);

/// Spoils the entries by a fault of one of them, and tells which of them is to be refused.
pub fn spoil(copy: &mut Certificate, fault: Fault, beside: Beside, numbers: &mut Numbers) -> usize {
    match beside {
        Beside::Nothing => {
            let at = numbers.below(copy.entries.len());
            fault(copy, at, numbers);
            at
        }
        Beside::Missing(name) => {
            let at = spoil(copy, fault, Beside::Nothing, numbers);
            misname(copy, at, name);
            at
        }
        Beside::Same(order) => {
            let at = disorder(copy, order, 0, numbers);
            fault(copy, at, numbers);
            at
        }
        Beside::Later(order) => {
            let later = disorder(copy, order, 0, numbers);
            let at = numbers.below(later);
            fault(copy, at, numbers);
            at
        }
        Beside::Earlier(order) => {
            let (at, later) = disorder_before(copy, order, numbers);
            fault(copy, later, numbers);
            at
        }
    }
}

/// One fault in an entry and another one in a later entry, or in the same where there is no later one; tells the first.
pub fn spoil_two(copy: &mut Certificate, faults: [Fault; 2], numbers: &mut Numbers) -> usize {
    let last = copy.entries.len() - 1;
    let at = numbers.below(last.max(1));
    faults[0](copy, at, numbers);
    if at < last {
        let later = numbers.between(at as u64 + 1, last as u64);
        faults[1](copy, later as usize, numbers);
    }
    at
}

/// Gives an entry a rank or a next mode such that the goal number is not the due one, while the next mode remembers the
/// same signal. Where there is one goal number alone, nothing changes.
pub fn leave_turn(copy: &mut Certificate, at: usize, numbers: &mut Numbers) {
    let entry = copy.entries[at].clone();
    let with = |next: u8, rank: u16| Entry {
        next,
        rank,
        ..entry.clone()
    };
    let remembers = |next: &u8| copy.memory[usize::from(*next)] == entry.signal;
    let mut faulty: Vec<Entry> = (0..copy.memory.len() as u8)
        .filter(remembers)
        .map(|next| with(next, entry.rank))
        .collect();
    let rank = match entry.rank {
        0 => numbers.pick(&[1, 2, u16::MAX]),
        _ => 0,
    };
    faulty.push(with(entry.next, rank));
    faulty.retain(|entry| keeps_turn(copy, entry) == Some(false));
    if !faulty.is_empty() {
        copy.entries[at] = numbers.pick(&faulty);
    }
}

/// Has the next mode of an entry the due goal number? None where a mode of it has no goal.
fn keeps_turn(copy: &Certificate, entry: &Entry) -> Option<bool> {
    let has_goal = |mode: u8| usize::from(mode) < copy.goals.len();
    (has_goal(entry.mode) && has_goal(entry.next)).then(|| copy.keeps_turn(entry))
}

/// Gives an entry a rank on the other side of 0 and a next mode with the number and signal that go with it, if there is
/// one: it is told by its goal alone.
pub fn leave_goal(copy: &mut Certificate, at: usize, numbers: &mut Numbers) {
    let mut entry = copy.entries[at].clone();
    entry.rank = match entry.rank {
        0 => numbers.pick(&[1, 2, u16::MAX]),
        _ => 0,
    };
    let of_next = |next: u8| Entry {
        next,
        signal: copy.memory[usize::from(next)],
        ..entry.clone()
    };
    let mut open: Vec<Entry> = (0..copy.memory.len() as u8).map(of_next).collect();
    open.retain(|entry| keeps_turn(copy, entry) == Some(true));
    if !open.is_empty() {
        copy.entries[at] = numbers.pick(&open);
    }
}

/// Gives an entry its own mode as the next one, with its signal and a rank above 0: neither 23 nor 24 is due.
pub fn mend(copy: &mut Certificate, at: usize) {
    let entry = &mut copy.entries[at];
    if let Some(&signal) = copy.memory.get(usize::from(entry.mode)) {
        (entry.next, entry.signal) = (entry.mode, signal);
        entry.rank = entry.rank.max(1);
    }
}

/// Gives an entry another signal than its next mode remembers, or a next mode that remembers another one. A lone signal
/// gets a second one of the same green byte. In HD certificates nothing changes.
pub fn forget(copy: &mut Certificate, at: usize, numbers: &mut Numbers) {
    let entry = &mut copy.entries[at];
    let Some(&remembered) = copy.memory.get(usize::from(entry.next)) else {
        return;
    };
    let modes: Vec<u8> = (0..copy.memory.len() as u8)
        .filter(|&mode| copy.memory[usize::from(mode)] != entry.signal)
        .collect();
    if !modes.is_empty() && numbers.chance(50) {
        entry.next = numbers.pick(&modes);
        return;
    }
    if copy.signals.len() == 1 {
        copy.signals.push(copy.signals[0]);
    }
    let signals: Vec<u8> = (0..copy.signals.len() as u8)
        .filter(|&signal| signal != remembered)
        .collect();
    entry.signal = numbers.pick(&signals);
}
