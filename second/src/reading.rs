//! Reading a certificate from bytes: refusals 1 to 9 and 22 to 24.

mod entries;
mod modes;
mod reader;

pub use entries::cabinet_entries;

use crate::certificate::{Arrival, Certificate, Kind, Link, Turn, MOST_AMOUNT, MOST_CELLS};
use crate::report::Report;
use entries::read_entry;
use modes::read_modes;
use reader::{wide, Reader};

/// Kind and counts of the first record.
struct Header {
    kind: Kind,
    links: usize,
    turns: usize,
    signals: usize,
    modes: u8,
    arrivals: usize,
    entries: usize,
}

/// Reads a whole certificate, or tells the first refusal.
pub fn read(bytes: &[u8]) -> Result<Certificate, Report> {
    let mut reader = Reader::of(bytes);
    let header = read_header(&mut reader)?;
    let mut certificate = Certificate {
        kind: header.kind,
        links: Vec::new(),
        turns: Vec::new(),
        signals: Vec::new(),
        modes: header.modes,
        memory: Vec::new(),
        goals: Vec::new(),
        cuts: Vec::new(),
        arrivals: Vec::new(),
        entries: Vec::new(),
    };
    read_network(&mut reader, &header, &mut certificate)?;
    read_policy(&mut reader, &header, &mut certificate)?;
    read_end(&mut reader)?;
    Ok(certificate)
}

/// Links, turns, signals and, but in an HD certificate, modes.
fn read_network(
    reader: &mut Reader,
    header: &Header,
    certificate: &mut Certificate,
) -> Result<(), Report> {
    for _ in 0..header.links {
        certificate.links.push(read_link(reader, header.kind)?);
    }
    for _ in 0..header.turns {
        let turn = read_turn(reader, certificate)?;
        certificate.turns.push(turn);
    }
    for _ in 0..header.signals {
        let green = read_signal(reader, header.links)?;
        certificate.signals.push(green);
    }
    if header.kind.has_starts() {
        read_modes(reader, certificate)?;
    }
    Ok(())
}

/// Grid, arrival boxes and entries.
fn read_policy(
    reader: &mut Reader,
    header: &Header,
    certificate: &mut Certificate,
) -> Result<(), Report> {
    let mut cells = 1;
    for link in 0..header.links {
        let cuts = read_grid(reader, certificate.links[link].cap, &mut cells)?;
        certificate.cuts.push(cuts);
    }
    for _ in 0..header.arrivals {
        let arrivals = read_arrivals(reader, header.links)?;
        certificate.arrivals.push(arrivals);
    }
    for _ in 0..header.entries {
        let entry = read_entry(reader, certificate, cells)?;
        certificate.entries.push(entry);
    }
    Ok(())
}

/// The first record, whose mark tells the kind.
fn read_header(reader: &mut Reader) -> Result<Header, Report> {
    let (record, kind) = reader.record_of_kind(7)?;
    let header = Header {
        kind,
        links: record.byte(0).into(),
        turns: record.byte(1).into(),
        signals: record.byte(2).into(),
        modes: record.byte(3),
        arrivals: record.byte(4).into(),
        entries: record.wide(5).into(),
    };
    record.must(3, (1..=8).contains(&header.links))?;
    record.must(3, header.turns <= 32)?;
    record.must(3, (1..=16).contains(&header.signals))?;
    record.must(3, (1..=8).contains(&header.modes))?;
    record.must(3, (1..=8).contains(&header.arrivals))?;
    record.must(3, (1..=4_096).contains(&header.entries))?;
    Ok(header)
}

/// Reads a link; but in an HD certificate two bytes more, the start flow.
fn read_link(reader: &mut Reader, kind: Kind) -> Result<Link, Report> {
    let size = if kind.has_starts() { 12 } else { 10 };
    let record = reader.record(b"LK", size)?;
    let link = Link {
        tail: record.byte(0),
        head: record.byte(1),
        cap: record.wide(2),
        flow: record.wide(4),
        safe: record.wide(6),
        goal: record.wide(8),
        start: kind.has_starts().then(|| record.wide(10)),
    };
    record.must(4, link.head >= 1 && link.head != link.tail)?;
    record.must(4, (1..=MOST_AMOUNT).contains(&link.cap))?;
    record.must(4, (1..=link.cap).contains(&link.flow))?;
    record.must(4, link.safe <= link.cap)?;
    record.must(4, link.goal <= link.safe)?;
    if let Some(start) = link.start {
        record.must(4, (1..=link.flow).contains(&start))?;
    }
    Ok(link)
}

/// Reads a turn; the certificate holds the links and the turns before it.
fn read_turn(reader: &mut Reader, certificate: &Certificate) -> Result<Turn, Report> {
    let record = reader.record(b"TN", 5)?;
    let turn = Turn {
        from: record.byte(0).into(),
        to: record.byte(1).into(),
        share: record.byte(2),
        pull: record.wide(3),
    };
    let links = &certificate.links;
    record.must(5, turn.from < links.len() && turn.to < links.len())?;
    record.must(5, links[turn.from].head == links[turn.to].tail)?;
    record.must(5, (1..=100).contains(&turn.share))?;
    record.must(5, (1..=MOST_AMOUNT).contains(&turn.pull))?;
    if let Some(before) = certificate.turns.last() {
        record.must(5, (before.from, before.to) < (turn.from, turn.to))?;
    }
    let earlier = certificate.turns.iter().filter(|t| t.from == turn.from);
    let total: u32 = earlier.map(|t| u32::from(t.share)).sum::<u32>() + u32::from(turn.share);
    record.must(5, total <= 100)?;
    Ok(turn)
}

fn read_signal(reader: &mut Reader, links: usize) -> Result<u8, Report> {
    let record = reader.record(b"SG", 1)?;
    let green = record.byte(0);
    record.must(6, u32::from(green) < 1 << links)?;
    Ok(green)
}

/// Reads the cuts of one link. `cells` is the product of the counts so far.
fn read_grid(reader: &mut Reader, cap: u16, cells: &mut usize) -> Result<Vec<u16>, Report> {
    let record = reader.record(b"GR", 1)?;
    let count = usize::from(record.byte(0));
    record.must(7, (1..=15).contains(&count))?;
    record.must(7, *cells * count <= MOST_CELLS)?;
    *cells *= count;
    let bytes = reader.take(record.offset, 2 * (count - 1))?;
    let cuts: Vec<u16> = (0..count - 1).map(|cut| wide(bytes, 2 * cut)).collect();
    record.must(7, cuts.iter().all(|cut| (1..cap).contains(cut)))?;
    record.must(7, cuts.windows(2).all(|pair| pair[0] < pair[1]))?;
    Ok(cuts)
}

fn read_arrivals(reader: &mut Reader, links: usize) -> Result<Vec<Arrival>, Report> {
    let record = reader.record(b"AR", 4 * links)?;
    let mut arrivals = Vec::new();
    for link in 0..links {
        let low = record.wide(4 * link);
        let high = record.wide(4 * link + 2);
        record.must(8, low <= high && high <= MOST_AMOUNT)?;
        arrivals.push(Arrival { low, high });
    }
    Ok(arrivals)
}

/// ZZ, and nothing after it.
fn read_end(reader: &mut Reader) -> Result<(), Report> {
    reader.record(b"ZZ", 0)?;
    reader.must_end()
}
