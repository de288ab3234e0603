//! Changes of start flows and of memories.

use super::moved;
use crate::generate::bytes::{links_place, modes_place};
use crate::generate::entries::{spoil, Beside, Way};
use crate::generate::starts::add_starts;
use crate::numbers::Numbers;
use second::Certificate;

/// One change.
pub fn change(copy: &mut Certificate, numbers: &mut Numbers) {
    match numbers.below(9) {
        0..=3 => change_start(copy, numbers),
        4..=6 => change_memory(copy, numbers),
        _ => {
            let any = numbers.pick(&Beside::all());
            let beside = numbers.pick(&[Beside::Nothing, any]);
            spoil(copy, Way::Forgotten(beside), numbers);
        }
    }
}

/// Start flows at and beyond their ends, others, a flow far above, and a record that has none.
fn change_start(copy: &mut Certificate, numbers: &mut Numbers) {
    if numbers.chance(15) {
        return add_starts(copy, numbers);
    }
    let at = numbers.below(copy.links.len());
    let link = &mut copy.links[at];
    let Some(start) = &mut link.start else {
        return;
    };
    match numbers.below(12) {
        0..=2 => *start = 0,
        3 | 4 => *start = link.flow.saturating_add(1),
        5 => *start = link.cap,
        6 => *start = moved(numbers, *start),
        7 => *start = link.flow,
        8 => *start = numbers.wide(1, link.flow),
        9 => link.flow = link.cap,
        10 => link.flow = numbers.wide(link.flow, link.cap),
        _ => link.start = None,
    }
}

/// Memories of missing and of other signals, and too few or too many of them.
fn change_memory(copy: &mut Certificate, numbers: &mut Numbers) {
    let signals = copy.signals.len();
    if copy.memory.is_empty() {
        return copy.memory.push(0);
    }
    let at = numbers.below(copy.memory.len());
    match numbers.below(10) {
        0 | 1 => copy.memory[at] = signals as u8,
        2 => copy.memory[at] = numbers.pick(&[16, 255]),
        3..=5 => copy.memory[at] = numbers.below(signals) as u8,
        6 => copy.memory.swap(0, at),
        7 => drop(copy.memory.remove(at)),
        8 => copy.memory.insert(at, copy.memory[at]),
        _ => copy.memory.clear(),
    }
}

/// A cut within an LK or an MD, another mark in place of its own, or another byte in it.
pub fn change_record(bytes: &mut Vec<u8>, certificate: &Certificate, numbers: &mut Numbers) {
    let (place, count) = match numbers.chance(60) {
        true => (modes_place(certificate), certificate.memory.len()),
        false => (links_place(certificate), certificate.links.len()),
    };
    let size = place.len() / count;
    let record = place.start + size * numbers.below(count);
    let at = record + numbers.below(size);
    match numbers.below(4) {
        0 | 1 => bytes.truncate(at),
        2 => {
            let mark = numbers.pick(&[b"GR", b"SG", b"AR", b"TN", b"md", b"DM", b"MD", b"LK"]);
            bytes[record..record + 2].copy_from_slice(mark);
        }
        _ => bytes[at] = numbers.any() as u8,
    }
}
