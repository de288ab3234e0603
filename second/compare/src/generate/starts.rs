//! What H2 and H3 certificates have more: start flows, and the signals that modes remember.

use crate::numbers::Numbers;
use second::certificate::{Certificate, Kind};

/// Gives every link a start flow: often its flow, often a small one.
pub fn add_starts(certificate: &mut Certificate, numbers: &mut Numbers) {
    let style = numbers.below(10);
    for link in &mut certificate.links {
        let own = match style {
            0 => 0,
            1..=3 => 1,
            _ => numbers.below(3),
        };
        link.start = Some(match own {
            0 => link.flow,
            1 => numbers.wide(1, (link.flow / 4).max(1)),
            _ => numbers.wide(1, link.flow),
        });
    }
}

/// Adds signals, mostly until there are three: what is shown before then matters.
pub fn add_signals(certificate: &mut Certificate, numbers: &mut Numbers) {
    let all = (0xFF_u16 >> (8 - certificate.links.len())) as u8;
    let least = numbers.pick(&[1, 2, 3, 3, 3]);
    while certificate.signals.len() < least {
        let green = numbers.any() as u8 & all;
        certificate.signals.push(green);
    }
}

/// Gives so many modes a signal each: mostly the signals in turn, else any.
pub fn add_memory(certificate: &mut Certificate, modes: usize, numbers: &mut Numbers) {
    let signals = certificate.signals.len();
    let first = match numbers.chance(70) {
        true => Some(numbers.below(signals)),
        false => None,
    };
    let signal = |mode: usize| match first {
        Some(first) => (first + mode) % signals,
        None => numbers.below(signals),
    };
    certificate.memory = (0..modes).map(signal).map(|signal| signal as u8).collect();
}

/// Turns an HD certificate into an H2 certificate. A mode remembers the signal of an entry that leads to it, if there
/// is one.
pub fn to_h2(certificate: &mut Certificate, numbers: &mut Numbers) {
    certificate.kind = Kind::H2;
    add_starts(certificate, numbers);
    add_memory(certificate, certificate.modes.into(), numbers);
    for entry in &certificate.entries {
        if let Some(memory) = certificate.memory.get_mut(usize::from(entry.next)) {
            *memory = entry.signal;
        }
    }
}

/// Turns any certificate into an HD certificate: start flows, memories and goals of modes are left out.
pub fn to_hd(certificate: &mut Certificate) {
    certificate.kind = Kind::Hd;
    certificate.memory.clear();
    certificate.goals.clear();
    for link in &mut certificate.links {
        link.start = None;
    }
}
