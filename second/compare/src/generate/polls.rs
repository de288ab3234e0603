//! Random polls of loop detectors.

use crate::numbers::Numbers;
use second::certificate::{Entry, Link};
use second::grid::{intervals, Interval};
use second::poll::DETECTOR_SIZE;
use second::Certificate;

/// The nine bytes of a detector.
type Detector = [u8; DETECTOR_SIZE];

const SIGN: u64 = 1 << 63;
const INFINITY: u64 = 0x7FF << 52;
/// Set in what is not a number and quiet.
const QUIET: u64 = 1 << 51;
const LARGEST: u64 = INFINITY - 1;
/// The least amounts, and those around the least normal one.
const SMALL: [u64; 6] = [1, 2, (1 << 52) - 1, 1 << 52, (1 << 52) + 1, 1 << 51];

/// A poll for a certificate in a mode: mostly one that it answers, often at an edge or one step beside it.
pub fn any_poll(certificate: &Certificate, mode: u8, numbers: &mut Numbers) -> Vec<u8> {
    let cell = any_cell(certificate, mode, numbers);
    let mut detectors: Vec<Detector> = cell
        .iter()
        .flat_map(|interval| any_pair(interval, numbers))
        .collect();
    for _ in 0..numbers.pick(&[0, 0, 0, 0, 0, 0, 0, 0, 0, 1, 1, 3]) {
        spoil(&mut detectors, &certificate.links, numbers);
    }
    let mut poll = detectors.concat();
    let any = numbers.below(60);
    match numbers.below(80) {
        0 => poll.truncate(numbers.below(poll.len())),
        1 => poll.truncate(poll.len() - numbers.pick(&[1, 9, 18])),
        2 => poll.extend(vec![0; numbers.pick(&[1, 9, 18, any])]),
        3 => poll.clear(),
        _ => (),
    }
    poll
}

/// The intervals of a cell: mostly of one that is listed for the mode.
fn any_cell(certificate: &Certificate, mode: u8, numbers: &mut Numbers) -> Vec<Interval> {
    let is_listed = |entry: &&Entry| entry.mode == mode;
    let listed: Vec<&Entry> = certificate.entries.iter().filter(is_listed).collect();
    let mut left = match listed.len() {
        0 => numbers.below(4_096),
        _ if numbers.chance(15) => numbers.below(4_096),
        _ => numbers.pick(&listed).cell.into(),
    };
    let mut cell = Vec::new();
    for (link, cuts) in certificate.links.iter().zip(&certificate.cuts).rev() {
        let own = intervals(link.cap, cuts);
        cell.push(own[left % own.len()].clone());
        left /= own.len();
    }
    cell.reverse();
    cell
}

/// Two detectors whose larger reading lies in the interval, or one of them and a fault.
fn any_pair(interval: &Interval, numbers: &mut Numbers) -> [Detector; 2] {
    let least = bits(interval.low);
    let most = match interval.last {
        true => bits(interval.high),
        false => bits(interval.high) - 1,
    };
    let queue = any_within(least, most, numbers);
    let other = match numbers.below(6) {
        0 => queue,
        1 => least.saturating_sub(1),
        2 => any_within(least, most, numbers),
        _ => any_within(0, most, numbers),
    };
    let other = match numbers.chance(50) {
        true => detector(other),
        false => any_fault(numbers),
    };
    match numbers.chance(50) {
        true => [detector(queue), other],
        false => [other, detector(queue)],
    }
}

fn bits(queue: u16) -> u64 {
    f64::from(queue).to_bits()
}

/// The 64 bits of an amount from `least` to `most`, which are bits too: at an end or one step beside it, or any.
fn any_within(least: u64, most: u64, numbers: &mut Numbers) -> u64 {
    let small = numbers.pick(&SMALL);
    match numbers.below(10) {
        0 | 1 => least,
        2 => (least + 1).min(most),
        3 | 4 => most,
        5 => (most - 1).max(least),
        6 if least == 0 => numbers.pick(&[SIGN, small]),
        7 => numbers.between(least, most),
        _ => {
            let part = (numbers.any() >> 11) as f64 / (1u64 << 53) as f64;
            let [low, high] = [least, most].map(f64::from_bits);
            (low + (high - low) * part).to_bits().clamp(least, most)
        }
    }
}

fn detector(bits: u64) -> Detector {
    let mut bytes = [0; DETECTOR_SIZE];
    bytes[1..].copy_from_slice(&bits.to_be_bytes());
    bytes
}

/// A fault with any code, and any bytes behind it.
fn any_fault(numbers: &mut Numbers) -> Detector {
    let mut bytes = detector(numbers.any());
    bytes[0] = 1;
    bytes
}

/// Changes detectors so that the poll is mostly refused.
fn spoil(detectors: &mut [Detector], links: &[Link], numbers: &mut Numbers) {
    let at = numbers.below(detectors.len());
    match numbers.below(10) {
        0..=4 => detectors[at] = detector(odd_reading(links[at / 2].cap, numbers)),
        5..=7 => {
            detectors[at] = any_fault(numbers);
            detectors[at ^ 1] = any_fault(numbers);
        }
        _ => {
            let any = numbers.any() as u8;
            detectors[at][0] = numbers.pick(&[2, 3, 128, 255, any]);
        }
    }
}

/// 64 bits that mostly are no queue of a link.
fn odd_reading(cap: u16, numbers: &mut Numbers) -> u64 {
    let sign = numbers.any() & SIGN;
    let below_quiet = numbers.any() % QUIET;
    match numbers.below(14) {
        0 => sign | INFINITY | QUIET | below_quiet,
        1 => sign | INFINITY | QUIET,
        2 => sign | INFINITY | below_quiet.max(1),
        3 => sign | INFINITY | 1 << numbers.below(52),
        4 => sign | INFINITY,
        5 => sign | LARGEST,
        6 | 7 => bits(cap) + 1,
        8 => bits(cap) + numbers.between(1, 1 << 54),
        9 => SIGN | 1,
        10 => SIGN | numbers.pick(&SMALL),
        11 => SIGN | bits(numbers.wide(0, cap)),
        12 => (65_536.0 * f64::from(numbers.wide(1, 9)) + f64::from(cap)).to_bits(),
        _ => numbers.any(),
    }
}
