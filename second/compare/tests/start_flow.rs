//! Generated H2 loads tell likely slips about start flows and memories, by the second checker alone: for each slip there
//! are loads whose verdict would be another one. Damaged copies are refused at LK and MD records in every way.

use compare::generate::bytes::{bytes_of, links_place, modes_place};
use compare::generate::{certificate, damaged, Size};
use compare::numbers::Numbers;
use compare::tally::NUMBERS;
use second::certificate::{Certificate, Entry, Greens, Kind, Link};
use second::conditions::{check_flows, check_pull_sums, read_sound};
use second::grid::{cells, Cell};
use second::image::image;
use second::judging::judge_entries;
use second::reading::read;
use second::{judge, Report, Verdict};

/// Bytes of HD or H2, of an LK in each kind, of a TN, of an SG or MD, and of an EN.
const HEADER: usize = 9;
const HD_LINK: usize = 12;
const H2_LINK: usize = 14;
const TURN: usize = 7;
const SIGNAL: usize = 3;
const ENTRY: usize = 9;

/// A verdict with a slip, from the bytes and the right verdict.
type Slip = fn(&[u8], Verdict) -> Verdict;

const SLIPS: [(&str, Slip); 10] = [
    ("full flow in the first green step", |bytes, right| {
        with_greens(bytes, right, |certificate, entry| {
            Greens::same(certificate.greens(entry).now)
        })
    }),
    ("start flow whatever was shown before", |bytes, right| {
        with_greens(bytes, right, |certificate, entry| Greens {
            before: 0,
            ..certificate.greens(entry)
        })
    }),
    ("memory of the next mode", |bytes, right| {
        with_greens(bytes, right, |certificate, entry| Greens {
            before: remembered(certificate, entry.next),
            ..certificate.greens(entry)
        })
    }),
    ("memory of mode 0", |bytes, right| {
        with_greens(bytes, right, |certificate, entry| Greens {
            before: remembered(certificate, 0),
            ..certificate.greens(entry)
        })
    }),
    ("start flow 0 not refused", |bytes, right| {
        with_starts(bytes, right, |start, _| start.max(1))
    }),
    ("start flow above flow not refused", |bytes, right| {
        with_starts(bytes, right, |start, flow| start.min(flow))
    }),
    ("condition 11 by start flow", flows_by_start),
    ("23 not tested", without_memory),
    ("23 tested before 22", memory_first),
    ("23 by the memory of the entry's own mode", own_memory),
];

/// The green byte of the signal that a mode remembers.
fn remembered(certificate: &Certificate, mode: u8) -> u8 {
    let signal = certificate.memory[usize::from(mode)];
    certificate.signals[usize::from(signal)]
}

/// The entries judged with other green bytes.
fn with_greens(
    bytes: &[u8],
    right: Verdict,
    greens: fn(&Certificate, &Entry) -> Greens,
) -> Verdict {
    match read_sound(bytes) {
        Ok(certificate) if certificate.kind == Kind::H2 => judged(&certificate, greens),
        _ => right,
    }
}

/// The verdict on a certificate that has passed every test before 12, with these green bytes.
fn judged(certificate: &Certificate, greens: fn(&Certificate, &Entry) -> Greens) -> Verdict {
    let cells = cells(certificate);
    let (mut count, mut overflows) = (0, 0);
    for (number, entry) in certificate.entries.iter().enumerate() {
        let cell = &cells[usize::from(entry.cell)];
        let within = |limit: fn(&Link) -> u16| is_within(cell, &certificate.links, limit);
        if !within(|link| link.safe) {
            return Verdict::refused(Report::at(12, number).counting(count));
        }
        if (entry.rank == 0) != within(|link| link.goal) {
            return Verdict::refused(Report::at(13, number).counting(count));
        }
        let mut over = false;
        for arrivals in &certificate.arrivals {
            let image = image(certificate, greens(certificate, entry), cell, arrivals);
            over |= image.overflows();
            let successors = (0..cells.len()).filter(|&other| image.meets(&cells[other]));
            for successor in successors {
                count += 1;
                if let Err(refusal) = looked_up(certificate, entry, successor) {
                    let report = Report::at(refusal, number).and(successor);
                    return Verdict::refused(report.counting(count));
                }
            }
        }
        overflows += u64::from(over);
    }
    Verdict::accepted(count, overflows)
}

fn is_within(cell: &Cell, links: &[Link], limit: fn(&Link) -> u16) -> bool {
    let mut links = cell.iter().zip(links);
    links.all(|(interval, link)| interval.high <= limit(link))
}

/// One successor: 14 if it is not listed, 15 if its rank is not lower.
fn looked_up(certificate: &Certificate, entry: &Entry, successor: usize) -> Result<(), u32> {
    let pair = (successor as u16, entry.next);
    let entries = &certificate.entries;
    match entries.binary_search_by_key(&pair, |entry| (entry.cell, entry.mode)) {
        Err(_) => Err(14),
        Ok(at) if entry.rank > 0 && entries[at].rank >= entry.rank => Err(15),
        Ok(_) => Ok(()),
    }
}

/// The verdict on a copy of an H2 certificate with other start flows, which come from the old ones and the flows.
fn with_starts(bytes: &[u8], right: Verdict, start: fn(u16, u16) -> u16) -> Verdict {
    if right.report.number != 4 || !bytes.starts_with(b"H2") {
        return right;
    }
    let mut copy = bytes.to_vec();
    let links = copy[HEADER..].chunks_exact_mut(H2_LINK);
    for link in links.take(bytes[2].into()) {
        if link.starts_with(b"LK") {
            let wide = |at: usize| u16::from_be_bytes([link[at], link[at + 1]]);
            let start = start(wide(12), wide(6));
            link[12..].copy_from_slice(&start.to_be_bytes());
        }
    }
    judge(&copy)
}

/// Condition 11 with start flows in place of flows.
fn flows_by_start(bytes: &[u8], right: Verdict) -> Verdict {
    let Ok(mut certificate) = read(bytes) else {
        return right;
    };
    if check_pull_sums(&certificate).is_err() {
        return right;
    }
    let flows = certificate.clone();
    for link in &mut certificate.links {
        link.flow = link.limit(false);
    }
    match check_flows(&certificate) {
        Ok(()) => judge_entries(&flows),
        Err(refusal) => Verdict::refused(refusal),
    }
}

/// Where the MD records start.
fn modes_at(bytes: &[u8]) -> usize {
    let count = |at: usize| usize::from(bytes[at]);
    HEADER + H2_LINK * count(2) + TURN * count(3) + SIGNAL * count(4)
}

/// The signal that each mode remembers.
fn memory(bytes: &[u8]) -> Vec<u8> {
    let modes = bytes[modes_at(bytes)..].chunks_exact(SIGNAL);
    modes
        .take(bytes[5].into())
        .map(|record| record[2])
        .collect()
}

/// Reads an H2 certificate whose records before the entries are right, as if there were no 23.
fn read_without_memory(bytes: &[u8]) -> Result<Certificate, Report> {
    let mut copy = b"HD".to_vec();
    copy.extend(&bytes[2..HEADER]);
    let starts_at = HEADER + H2_LINK * usize::from(bytes[2]);
    let links: Vec<&[u8]> = bytes[HEADER..starts_at].chunks(H2_LINK).collect();
    links.iter().for_each(|link| copy.extend(&link[..HD_LINK]));
    let modes = modes_at(bytes)..modes_at(bytes) + SIGNAL * usize::from(bytes[5]);
    copy.extend(&bytes[starts_at..modes.start]);
    copy.extend(&bytes[modes.end..]);
    let mut certificate = read_sound(&copy)?;
    certificate.kind = Kind::H2;
    certificate.memory = memory(bytes);
    for (own, link) in certificate.links.iter_mut().zip(links) {
        own.start = Some(u16::from_be_bytes([link[12], link[13]]));
    }
    Ok(certificate)
}

fn without_memory(bytes: &[u8], right: Verdict) -> Verdict {
    if right.report.number != 23 || !bytes.starts_with(b"H2") {
        return right;
    }
    match read_without_memory(bytes) {
        Ok(certificate) => judge_entries(&certificate),
        Err(refusal) => Verdict::refused(refusal),
    }
}

/// 23 where an entry is out of order and its next mode remembers another signal.
fn memory_first(bytes: &[u8], right: Verdict) -> Verdict {
    let at = right.report.a as usize;
    if right.report.number != 22 || !bytes.starts_with(b"H2") {
        return right;
    }
    let entry = &bytes[at..at + ENTRY];
    match memory(bytes)[usize::from(entry[6])] == entry[5] {
        true => right,
        false => Verdict::refused(Report::at(23, at)),
    }
}

/// 23 where the entry's own mode remembers another signal.
fn own_memory(bytes: &[u8], right: Verdict) -> Verdict {
    match read(bytes) {
        Ok(certificate) if certificate.kind == Kind::H2 => {
            let memory = |entry: &Entry| certificate.memory[usize::from(entry.mode)];
            let entries = &certificate.entries;
            let first = entries.iter().position(|e| memory(e) != e.signal);
            let end = bytes.len() - 2 - ENTRY * entries.len();
            first.map_or(right, |at| {
                Verdict::refused(Report::at(23, end + ENTRY * at))
            })
        }
        _ => right,
    }
}

/// The right rule by the plain judging of this file.
fn rightly(bytes: &[u8], right: Verdict) -> Verdict {
    with_greens(bytes, right, Certificate::greens)
}

#[test]
fn generated_loads_tell_slips() {
    let mut told = [0; SLIPS.len()];
    for part in 0..400 {
        let mut numbers = Numbers::of(14, part);
        let drawn = certificate(&mut numbers, Size::Small, Kind::H2);
        let mut loads = vec![bytes_of(&drawn)];
        loads.extend((0..3).map(|_| damaged(&drawn, &mut numbers)));
        for bytes in loads {
            let right = judge(&bytes);
            assert_eq!(rightly(&bytes, right), right);
            for (told, (_, slip)) in told.iter_mut().zip(SLIPS) {
                *told += u64::from(slip(&bytes, right) != right);
            }
        }
    }
    for (told, (name, _)) in told.iter().zip(SLIPS) {
        println!("{name}: told by {told}");
        assert!(*told >= 5, "{name}: told by {told}");
    }
}

/// Damaged copies are refused at LK and MD records in every way, and change to HD in whole and in part.
#[test]
fn damage_reaches_links_and_modes() {
    let (mut links, mut modes, mut hd) = ([0; NUMBERS], [0; NUMBERS], [0; NUMBERS]);
    for part in 0..600 {
        let mut numbers = Numbers::of(15, part);
        let drawn = certificate(&mut numbers, Size::Small, Kind::H2);
        for _ in 0..3 {
            let bytes = damaged(&drawn, &mut numbers);
            let Report { number, a, .. } = judge(&bytes).report;
            let refused = |place: std::ops::Range<usize>| place.contains(&(a as usize));
            let at = number as usize;
            hd[at] += u64::from(bytes.starts_with(b"HD"));
            links[at] += u64::from(number < 9 && refused(links_place(&drawn)));
            modes[at] += u64::from(number < 9 && refused(modes_place(&drawn)));
        }
    }
    assert!([1, 2, 4].iter().all(|&at| links[at] >= 5), "{links:?}");
    assert!([1, 2, 6].iter().all(|&at| modes[at] >= 5), "{modes:?}");
    assert!([0, 2].iter().all(|&at| hd[at] >= 5), "{hd:?}");
}
