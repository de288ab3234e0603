//! The certificate that a pair is drawn from.

use crate::fast::judge;
use crate::generate::{bytes::bytes_of, find_policy};
use crate::numbers::Numbers;
use crate::pairs::draw::accepted;
use second::certificate::{Arrival, Certificate, Entry, Goal, Kind, Link};

/// One of so many has as many entries as there may be.
const FULL: usize = 250;
/// Most signals, modes and entries.
const MOST_SIGNALS: usize = 16;
const MOST_MODES: u8 = 8;
const MOST_ENTRIES: usize = 4_096;

/// An accepted certificate; some have two signals or two modes that do the same, so that entries have a choice.
pub fn base(kind: Kind, numbers: &mut Numbers) -> Certificate {
    if numbers.below(FULL) == 0 {
        let full = full(kind, numbers);
        if is_accepted(&full) {
            return full;
        }
    }
    let mut drawn = accepted(kind, numbers);
    if numbers.chance(25) && drawn.signals.len() < MOST_SIGNALS {
        drawn.signals.push(numbers.pick(&drawn.signals));
    }
    if numbers.chance(35) {
        add_twin(&mut drawn, numbers);
    }
    if numbers.chance(25) {
        name_junctions(&mut drawn, numbers);
    }
    drawn
}

/// A mode that does what another one does, if there is room for it. Entries may then lead to either of them.
fn add_twin(certificate: &mut Certificate, numbers: &mut Numbers) {
    let cells: usize = certificate.cuts.iter().map(|cuts| cuts.len() + 1).product();
    let twin = certificate.modes;
    if twin == MOST_MODES || cells * (usize::from(twin) + 1) > MOST_ENTRIES {
        return;
    }
    let mode = numbers.below(twin.into());
    let memory = certificate.memory.get(mode).copied();
    let goal = certificate.goals.get(mode).cloned();
    certificate.modes += 1;
    certificate.memory.extend(memory);
    certificate.goals.extend(goal);
    let entries = &mut certificate.entries;
    let own = entries.iter().filter(|own| usize::from(own.mode) == mode);
    let twins: Vec<Entry> = own
        .map(|own| Entry {
            mode: twin,
            ..own.clone()
        })
        .collect();
    entries.extend(twins);
    entries.sort_by_key(|entry| (entry.cell, entry.mode));
}

/// Names the junctions of a link 69 and 78: its record then has the bytes of the mark EN.
fn name_junctions(certificate: &mut Certificate, numbers: &mut Numbers) {
    let links = certificate.links.iter();
    let inner: Vec<Link> = links
        .clone()
        .filter(|link| link.tail > 0)
        .cloned()
        .collect();
    let mut junctions = links.flat_map(|link| [link.tail, link.head]);
    if inner.is_empty() || junctions.any(|junction| matches!(junction, b'E' | b'N')) {
        return;
    }
    let link = numbers.pick(&inner);
    let named = |junction: u8| match junction {
        own if own == link.tail => b'E',
        own if own == link.head => b'N',
        other => other,
    };
    for own in &mut certificate.links {
        (own.tail, own.head) = (named(own.tail), named(own.head));
    }
}

/// Three links of eight intervals each and eight modes: 4,096 entries where every pair can be listed, as it mostly can.
fn full(kind: Kind, numbers: &mut Numbers) -> Certificate {
    let mut certificate = Certificate {
        kind,
        links: (0..3).map(|_| wide_link(kind, numbers)).collect(),
        turns: Vec::new(),
        signals: vec![7; 3],
        modes: MOST_MODES,
        memory: Vec::new(),
        goals: Vec::new(),
        cuts: vec![vec![2, 4, 6, 8, 10, 12, 14]; 3],
        arrivals: vec![vec![Arrival { low: 0, high: 1 }; 3]],
        entries: Vec::new(),
    };
    if kind.has_starts() {
        certificate.memory = (0..MOST_MODES).map(|mode| mode % 3).collect();
    }
    if kind.has_goals() {
        certificate.goals = (0..MOST_MODES).map(|mode| goal(mode % 2)).collect();
    }
    find_policy(&mut certificate, numbers, MOST_MODES.into(), true);
    certificate
}

/// A link of cap 16 that is emptied in some steps.
fn wide_link(kind: Kind, numbers: &mut Numbers) -> Link {
    let flow = numbers.wide(5, 12);
    Link {
        tail: 0,
        head: 1,
        cap: 16,
        flow,
        safe: 16,
        goal: numbers.pick(&[4, 6, 16]),
        start: kind.has_starts().then_some(flow),
    }
}

/// Two goals that are met in turn.
fn goal(number: u8) -> Goal {
    let short = 4 + 2 * u16::from(number);
    Goal {
        number,
        amounts: vec![short, 16, 16],
    }
}

/// Is it accepted, by the checker made for speed?
pub fn is_accepted(certificate: &Certificate) -> bool {
    judge(&bytes_of(certificate)).is_accepted()
}
