//! Certificates that differ before the first EN and are accepted all the same.

use super::base::is_accepted;
use crate::generate::{to_h2, to_h3, to_hd, without_goals};
use crate::numbers::Numbers;
use second::certificate::{Certificate, Kind};

/// Changes that are tried until one is accepted, and how often each.
const CHANGES: usize = 4;
const TRIES: usize = 4;

/// One change.
type Change = fn(&mut Certificate, &mut Numbers);

/// Changes that there are in every kind.
const ANY: [Change; 14] = [
    change_arrivals,
    change_last,
    change_boxes,
    change_amounts,
    change_ends,
    change_turn,
    change_turn,
    change_signal,
    add_signal,
    add_mode,
    add_mode,
    change_grid,
    change_kind,
    change_kind,
];

/// Changes that there are where modes remember signals, and where they have goals.
const STARTS: [Change; 4] = [change_start, change_memory, change_memory, change_memory];
const GOALS: [Change; 3] = [change_goals, change_goals, change_link_goals];

/// The certificate with one change before the first EN; none if no try is accepted.
pub fn with_other_front(certificate: &Certificate, numbers: &mut Numbers) -> Option<Certificate> {
    let mut changes = ANY.to_vec();
    if certificate.kind.has_starts() {
        changes.extend(STARTS);
    }
    if certificate.kind.has_goals() {
        changes.extend(GOALS);
    }
    for _ in 0..CHANGES {
        let change = numbers.pick(&changes);
        for _ in 0..TRIES {
            let mut copy = certificate.clone();
            change(&mut copy, numbers);
            if copy != *certificate && is_accepted(&copy) {
                return Some(copy);
            }
        }
    }
    None
}

/// A number beside this one, mostly the next.
fn beside(value: u16, numbers: &mut Numbers) -> u16 {
    let step = numbers.pick(&[1, 1, 1, 2, 256]);
    match numbers.chance(50) {
        true => value.saturating_add(step),
        false => value.saturating_sub(step),
    }
}

/// An end of the arrivals on one link in one box, mostly such that there are fewer.
fn change_arrivals(copy: &mut Certificate, numbers: &mut Numbers) {
    let link = numbers.below(copy.links.len());
    let at = numbers.below(copy.arrivals.len());
    let arrival = &mut copy.arrivals[at][link];
    match numbers.below(4) {
        0 => arrival.low = numbers.wide(arrival.low, arrival.high),
        1 => arrival.high = numbers.wide(arrival.low, arrival.high),
        2 => arrival.low = beside(arrival.low, numbers),
        _ => arrival.high = beside(arrival.high, numbers),
    }
}

/// The low byte of the greatest arrivals on the last link in the last box: the last byte before the first EN.
fn change_last(copy: &mut Certificate, numbers: &mut Numbers) {
    let last = copy.arrivals.last_mut().and_then(|row| row.last_mut());
    if let Some(arrival) = last {
        let least = arrival.low.max(arrival.high & 0xFF00);
        arrival.high = numbers.wide(least, arrival.high);
    }
}

/// A box twice, or one left out.
fn change_boxes(copy: &mut Certificate, numbers: &mut Numbers) {
    let at = numbers.below(copy.arrivals.len());
    match (copy.arrivals.len(), numbers.chance(50)) {
        (8, _) | (2.., true) => drop(copy.arrivals.remove(at)),
        _ => copy.arrivals.push(copy.arrivals[at].clone()),
    }
}

fn change_amounts(copy: &mut Certificate, numbers: &mut Numbers) {
    let at = numbers.below(copy.links.len());
    let link = &mut copy.links[at];
    let amount = match numbers.below(4) {
        0 => &mut link.cap,
        1 => &mut link.flow,
        2 => &mut link.safe,
        _ => &mut link.goal,
    };
    *amount = beside(*amount, numbers);
}

/// Another junction at one end of a link.
fn change_ends(copy: &mut Certificate, numbers: &mut Numbers) {
    let at = numbers.below(copy.links.len());
    let junction = numbers.between(1, 255) as u8;
    let link = &mut copy.links[at];
    match numbers.chance(50) {
        true => link.tail = junction,
        false => link.head = junction,
    }
}

fn change_turn(copy: &mut Certificate, numbers: &mut Numbers) {
    if copy.turns.is_empty() {
        return;
    }
    let at = numbers.below(copy.turns.len());
    let turn = &mut copy.turns[at];
    match numbers.below(3) {
        0 => turn.share = beside(turn.share.into(), numbers) as u8,
        1 => turn.pull = beside(turn.pull, numbers),
        _ => drop(copy.turns.remove(at)),
    }
}

fn change_signal(copy: &mut Certificate, numbers: &mut Numbers) {
    let at = numbers.below(copy.signals.len());
    copy.signals[at] ^= 1 << numbers.below(copy.links.len());
}

/// One more, which no entry has.
fn add_signal(copy: &mut Certificate, numbers: &mut Numbers) {
    copy.signals.push(numbers.pick(&copy.signals));
}

/// One more, which no entry has.
fn add_mode(copy: &mut Certificate, _: &mut Numbers) {
    copy.modes += 1;
    copy.memory.extend(copy.memory.last().copied());
    copy.goals.extend(copy.goals.last().cloned());
}

fn change_grid(copy: &mut Certificate, numbers: &mut Numbers) {
    let link = numbers.below(copy.links.len());
    let cuts = &mut copy.cuts[link];
    if !cuts.is_empty() {
        let at = numbers.below(cuts.len());
        cuts[at] = beside(cuts[at], numbers);
    }
}

/// The same network as one of another kind.
fn change_kind(copy: &mut Certificate, numbers: &mut Numbers) {
    match (copy.kind, numbers.chance(50)) {
        (Kind::Hd, _) => as_h2(copy, numbers),
        (Kind::H2, true) => to_hd(copy),
        (Kind::H2, false) => to_h3(copy, numbers),
        (Kind::H3, true) => to_hd(copy),
        (Kind::H3, false) => without_goals(copy),
    }
}

/// As H2 with start flows that limit nothing, mostly.
fn as_h2(copy: &mut Certificate, numbers: &mut Numbers) {
    to_h2(copy, numbers);
    if numbers.chance(80) {
        for link in &mut copy.links {
            link.start = Some(link.flow);
        }
    }
}

fn change_start(copy: &mut Certificate, numbers: &mut Numbers) {
    let at = numbers.below(copy.links.len());
    let start = &mut copy.links[at].start;
    *start = start.map(|start| beside(start, numbers));
}

/// Another signal in a mode.
fn change_memory(copy: &mut Certificate, numbers: &mut Numbers) {
    let at = numbers.below(copy.memory.len());
    copy.memory[at] = numbers.below(copy.signals.len()) as u8;
}

/// Another amount in all goals of one number.
fn change_goals(copy: &mut Certificate, numbers: &mut Numbers) {
    let number = numbers.pick(&copy.goals).number;
    let link = numbers.below(copy.links.len());
    let step = numbers.pick(&[1, 1, 2]);
    let goals = copy.goals.iter_mut().filter(|goal| goal.number == number);
    for goal in goals {
        goal.amounts[link] = goal.amounts[link].saturating_add(step);
    }
}

/// Another goal of a link, which is not used.
fn change_link_goals(copy: &mut Certificate, numbers: &mut Numbers) {
    let at = numbers.below(copy.links.len());
    let link = &mut copy.links[at];
    link.goal = numbers.wide(0, link.safe);
}
