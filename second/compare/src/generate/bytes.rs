//! The bytes of a certificate.

use second::certificate::{Certificate, Entry};
use std::ops::Range;

/// Bytes of the first record, of an LK without start flow, of a TN, and of an SG or an MD without goal.
const HEADER: usize = 9;
const LINK: usize = 12;
const TURN: usize = 7;
const SIGNAL: usize = 3;

/// All records, as they stand; nothing is tested.
pub fn bytes_of(certificate: &Certificate) -> Vec<u8> {
    let mut out = header(certificate);
    for link in &certificate.links {
        out.extend([b'L', b'K', link.tail, link.head]);
        put(&mut out, &[link.cap, link.flow, link.safe, link.goal]);
        put(&mut out, link.start.as_slice());
    }
    for turn in &certificate.turns {
        out.extend([b'T', b'N', turn.from as u8, turn.to as u8, turn.share]);
        put(&mut out, &[turn.pull]);
    }
    for &green in &certificate.signals {
        out.extend([b'S', b'G', green]);
    }
    for (mode, &signal) in certificate.memory.iter().enumerate() {
        out.extend([b'M', b'D', signal]);
        if let Some(goal) = certificate.goals.get(mode) {
            out.push(goal.number);
            put(&mut out, &goal.amounts);
        }
    }
    for cuts in &certificate.cuts {
        out.extend([b'G', b'R', cuts.len() as u8 + 1]);
        put(&mut out, cuts);
    }
    for arrivals in &certificate.arrivals {
        out.extend(b"AR");
        for arrival in arrivals {
            put(&mut out, &[arrival.low, arrival.high]);
        }
    }
    for entry in &certificate.entries {
        put_entry(&mut out, entry);
    }
    out.extend(b"ZZ");
    out
}

fn header(certificate: &Certificate) -> Vec<u8> {
    let mut out = certificate.kind.mark().to_vec();
    let counts = [
        certificate.links.len() as u8,
        certificate.turns.len() as u8,
        certificate.signals.len() as u8,
        certificate.modes,
        certificate.arrivals.len() as u8,
    ];
    out.extend(counts);
    put(&mut out, &[certificate.entries.len() as u16]);
    out
}

/// Where the LK records stand.
pub fn links_place(certificate: &Certificate) -> Range<usize> {
    let starts = certificate.links.iter().filter(|link| link.start.is_some());
    HEADER..HEADER + LINK * certificate.links.len() + 2 * starts.count()
}

/// Where the MD records stand.
pub fn modes_place(certificate: &Certificate) -> Range<usize> {
    let turns = TURN * certificate.turns.len();
    let start = links_place(certificate).end + turns + SIGNAL * certificate.signals.len();
    let goals = certificate.goals.iter().take(certificate.memory.len());
    let goals: usize = goals.map(|goal| 1 + 2 * goal.amounts.len()).sum();
    start..start + SIGNAL * certificate.memory.len() + goals
}

fn put_entry(out: &mut Vec<u8>, entry: &Entry) {
    out.extend(b"EN");
    put(out, &[entry.cell]);
    out.extend([entry.mode, entry.signal, entry.next]);
    put(out, &[entry.rank]);
}

fn put(out: &mut Vec<u8>, numbers: &[u16]) {
    for number in numbers {
        out.extend(number.to_be_bytes());
    }
}
