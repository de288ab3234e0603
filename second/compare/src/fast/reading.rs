//! Reading in one pass: refusals 1 to 11 and 22 to 24.

mod entries;
mod modes;

use super::conditions::{flows, pull_sums};
use super::network::{Entry, Link, Network, Turn, ALL_GREEN, MOST};
use entries::{entries, goal_entries};
use modes::{goal_modes, modes};
use second::Report;

/// Bytes of an EN record.
const ENTRY: usize = 9;
/// Bytes of an LK record, with a start flow or without.
const HD_LINK: usize = 12;
const H2_LINK: usize = 14;

/// A certificate that has passed every test before 12.
pub struct Read<'a> {
    pub network: &'a Network,
    /// The EN records.
    pub records: &'a [[u8; ENTRY]],
}

/// Reads all records into a network of zeros and tests both conditions. What `start` makes of the network is shown every
/// entry by `put`.
pub fn read<'a, T>(
    bytes: &'a [u8],
    network: &'a mut Network,
    start: impl FnOnce(&Network) -> T,
    mut put: impl FnMut(&mut T, Entry),
) -> Result<(Read<'a>, T), Report> {
    let mut at = header(bytes, network)?;
    match network.has_starts {
        false => links::<HD_LINK>(bytes, &mut at, network)?,
        true => links::<H2_LINK>(bytes, &mut at, network)?,
    }
    turns(bytes, &mut at, network)?;
    signals(bytes, &mut at, network)?;
    match (network.has_starts, network.has_goals) {
        (false, _) => (),
        (true, false) => modes(bytes, &mut at, network)?,
        (true, true) => goal_modes(bytes, &mut at, network)?,
    }
    grids(bytes, &mut at, network)?;
    arrivals(bytes, &mut at, network)?;
    let mut made = start(network);
    let each = |entry| put(&mut made, entry);
    let records = match (network.has_starts, network.has_goals) {
        (false, _) => entries::<false, false>(bytes, at, network, each)?,
        (true, false) => entries::<true, false>(bytes, at, network, each)?,
        (true, true) => goal_entries(bytes, at, network, each)?,
    };
    at += ENTRY * network.entries;
    record::<2>(bytes, at, b"ZZ")?;
    if bytes.len() > at + 2 {
        return Err(Report::at(2, at + 2));
    }
    pull_sums(network)?;
    flows(network)?;
    Ok((Read { network, records }, made))
}

fn must(number: u32, at: usize, holds: bool) -> Result<(), Report> {
    if holds {
        Ok(())
    } else {
        Err(Report::at(number, at))
    }
}

/// The record of `SIZE` bytes at an offset, mark included.
#[inline]
fn record<'a, const SIZE: usize>(
    bytes: &'a [u8],
    at: usize,
    mark: &[u8; 2],
) -> Result<&'a [u8; SIZE], Report> {
    match bytes[at..].first_chunk::<SIZE>() {
        Some(record) if record[..2] == *mark => Ok(record),
        _ => Err(not_there(bytes, at, mark)),
    }
}

/// The record of so many bytes.
#[inline]
fn record_of<'a>(
    bytes: &'a [u8],
    at: usize,
    size: usize,
    mark: &[u8; 2],
) -> Result<&'a [u8], Report> {
    match bytes.get(at..at + size) {
        Some(record) if record.starts_with(mark) => Ok(record),
        _ => Err(not_there(bytes, at, mark)),
    }
}

/// Why no record with this mark stands at an offset.
#[cold]
fn not_there(bytes: &[u8], at: usize, mark: &[u8; 2]) -> Report {
    match bytes[at..].first_chunk::<2>() {
        Some(found) if found != mark => Report::at(2, at),
        _ => Report::at(1, at),
    }
}

#[inline]
fn wide(bytes: &[u8], at: usize) -> u16 {
    u16::from_be_bytes([bytes[at], bytes[at + 1]])
}

/// HD, H2 or H3; tells the offset behind it.
fn header(bytes: &[u8], network: &mut Network) -> Result<usize, Report> {
    let mark = match bytes.get(..2) {
        Some(b"H2") => b"H2",
        Some(b"H3") => b"H3",
        _ => b"HD",
    };
    network.has_starts = mark != b"HD";
    network.has_goals = mark == b"H3";
    let record = record::<9>(bytes, 0, mark)?;
    network.before = [ALL_GREEN; MOST];
    network.links = record[2].into();
    network.turns = record[3].into();
    network.signals = record[4].into();
    network.modes = record[5].into();
    network.boxes = record[6].into();
    network.entries = wide(record, 7).into();
    let holds = (1..=8).contains(&network.links)
        && network.turns <= 32
        && (1..=16).contains(&network.signals)
        && (1..=8).contains(&network.modes)
        && (1..=8).contains(&network.boxes)
        && (1..=4_096).contains(&network.entries);
    must(3, 0, holds)?;
    Ok(9)
}

/// LK records of so many bytes: 12, or 14 with the start flow at the end.
fn links<const SIZE: usize>(
    bytes: &[u8],
    at: &mut usize,
    network: &mut Network,
) -> Result<(), Report> {
    for link in 0..network.links {
        network.link[link] = link_at::<SIZE>(bytes, *at)?;
        *at += SIZE;
    }
    Ok(())
}

fn link_at<const SIZE: usize>(bytes: &[u8], at: usize) -> Result<Link, Report> {
    let record = record::<SIZE>(bytes, at, b"LK")?;
    let flow = wide(record, 6);
    let link = Link {
        tail: record[2],
        head: record[3],
        cap: wide(record, 4),
        flow,
        safe: wide(record, 8),
        goal: wide(record, 10),
        start: match SIZE {
            H2_LINK => wide(record, 12),
            _ => flow,
        },
    };
    let holds = link.head >= 1
        && link.head != link.tail
        && (1..=10_000).contains(&link.cap)
        && (1..=link.cap).contains(&link.flow)
        && link.safe <= link.cap
        && link.goal <= link.safe
        && (1..=link.flow).contains(&link.start);
    must(4, at, holds)?;
    Ok(link)
}

fn turns(bytes: &[u8], at: &mut usize, network: &mut Network) -> Result<(), Report> {
    let mut totals = [0u32; 8];
    let mut least = 0;
    for number in 0..network.turns {
        let record = record::<7>(bytes, *at, b"TN")?;
        let (from, to) = (usize::from(record[2]), usize::from(record[3]));
        must(5, *at, from < network.links && to < network.links)?;
        let (share, pull) = (record[4], wide(record, 5));
        totals[from] += u32::from(share);
        let holds = network.link[from].head == network.link[to].tail
            && (1..=100).contains(&share)
            && (1..=10_000).contains(&pull)
            && from * 8 + to >= least
            && totals[from] <= 100;
        must(5, *at, holds)?;
        least = from * 8 + to + 1;
        network.turn[number] = Turn {
            from: from as u8,
            to: to as u8,
            share,
            pull,
        };
        *at += 7;
    }
    Ok(())
}

fn signals(bytes: &[u8], at: &mut usize, network: &mut Network) -> Result<(), Report> {
    for signal in 0..network.signals {
        let green = record::<3>(bytes, *at, b"SG")?[2];
        must(6, *at, u32::from(green) < 1 << network.links)?;
        network.green[signal] = green;
        *at += 3;
    }
    Ok(())
}

fn grids(bytes: &[u8], at: &mut usize, network: &mut Network) -> Result<(), Report> {
    let mut cells = 1;
    for link in 0..network.links {
        let count = usize::from(record::<3>(bytes, *at, b"GR")?[2]);
        must(7, *at, (1..=15).contains(&count) && cells * count <= 4_096)?;
        cells *= count;
        let size = 2 * (count - 1);
        let Some(cuts) = bytes.get(*at + 3..*at + 3 + size) else {
            return Err(Report::at(1, *at));
        };
        let cap = network.link[link].cap;
        let edges = &mut network.edges[link];
        let mut ascend = true;
        for (cut, pair) in cuts.chunks_exact(2).enumerate() {
            edges[cut + 1] = wide(pair, 0);
            ascend &= edges[cut] < edges[cut + 1];
        }
        edges[count] = cap;
        must(7, *at, ascend && edges[count - 1] < cap)?;
        network.counts[link] = count;
        *at += 3 + size;
    }
    network.cells = cells;
    Ok(())
}

fn arrivals(bytes: &[u8], at: &mut usize, network: &mut Network) -> Result<(), Report> {
    let size = 2 + 4 * network.links;
    for number in 0..network.boxes {
        let record = record_of(bytes, *at, size, b"AR")?;
        for (link, pair) in record[2..].chunks_exact(4).enumerate() {
            let (low, high) = (wide(pair, 0), wide(pair, 2));
            must(8, *at, low <= high && high <= 10_000)?;
            network.low[link][number] = low;
            network.high[link][number] = high;
        }
        *at += size;
    }
    Ok(())
}
