//! The flow rule, in whole numbers over a scale.

use crate::certificate::{is_green, Certificate, Greens, MOST_LINKS};

/// The next queues stand over this many times the scale of the queues.
pub const FINER: i128 = 10_000;

/// One whole number a link over a common scale; places of absent links are 0.
pub type Amounts = [i128; MOST_LINKS];

/// What each link sends, over 100 × scale: 0 if it is red, else the least of its queue, its limit and the supplies.
fn sent(certificate: &Certificate, greens: Greens, queues: &Amounts, scale: i128) -> Amounts {
    let mut sent = [0; MOST_LINKS];
    for (number, link) in certificate.links.iter().enumerate() {
        if is_green(greens.now, number) {
            let limit = link.limit(is_green(greens.before, number));
            sent[number] = 100 * queues[number].min(i128::from(limit) * scale);
        }
    }
    for turn in &certificate.turns {
        if is_green(greens.now, turn.from) {
            let cap = i128::from(certificate.links[turn.to].cap) * scale;
            let supply = i128::from(turn.pull) * (cap - queues[turn.to]);
            sent[turn.from] = sent[turn.from].min(supply);
        }
    }
    sent
}

/// One step: the next queues over `FINER` × scale, from queues and arrivals over `scale`.
/// No number overflows while queues are at most their caps, arrivals at most 10,000 and scale at most 10^24.
pub fn next_queues(
    certificate: &Certificate,
    greens: Greens,
    queues: &Amounts,
    arrivals: &Amounts,
    scale: i128,
) -> Amounts {
    let uncut = uncut_queues(certificate, greens, queues, arrivals, scale);
    cut(&uncut, &caps(certificate, scale))
}

/// The cap of each link over `FINER` × scale.
pub fn caps(certificate: &Certificate, scale: i128) -> Amounts {
    let mut caps = [0; MOST_LINKS];
    for (number, link) in certificate.links.iter().enumerate() {
        caps[number] = FINER * i128::from(link.cap) * scale;
    }
    caps
}

/// Queues cut at their caps.
pub fn cut(uncut: &Amounts, caps: &Amounts) -> Amounts {
    std::array::from_fn(|link| uncut[link].min(caps[link]))
}

/// The next queues as they are before they are cut at cap.
pub fn uncut_queues(
    certificate: &Certificate,
    greens: Greens,
    queues: &Amounts,
    arrivals: &Amounts,
    scale: i128,
) -> Amounts {
    let sent = sent(certificate, greens, queues, scale);
    let mut next = [0; MOST_LINKS];
    for link in 0..certificate.links.len() {
        next[link] = FINER * (queues[link] + arrivals[link]) - 100 * sent[link];
    }
    for turn in &certificate.turns {
        next[turn.to] += i128::from(turn.share) * sent[turn.from];
    }
    next
}
