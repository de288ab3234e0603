//! The EN records: refusals 1, 2, 9, 22, 23 and 24.

use super::{not_there, ENTRY};
use crate::fast::network::{Entry, Network};
use second::Report;

/// EN records; with the test of 23 where there are start flows, and of 24 where modes have goals.
pub fn entries<'a, const STARTS: bool, const GOALS: bool>(
    bytes: &'a [u8],
    at: usize,
    network: &Network,
    mut each: impl FnMut(Entry),
) -> Result<&'a [[u8; ENTRY]], Report> {
    let (whole, _) = bytes[at..].as_chunks::<ENTRY>();
    let records = &whole[..whole.len().min(network.entries)];
    let mut least = 0;
    for (number, record) in records.iter().enumerate() {
        let entry = Entry::of(record);
        let key = key(entry);
        // In this order for speed alone; which test fails is told by `refused`.
        let mut holds = (record[..2] == *b"EN") & (key >= least) & names_exist(entry, network);
        if STARTS {
            holds &= is_remembered(entry, network);
        }
        if GOALS {
            holds &= network.keeps_turn(entry.mode, entry.next, entry.rank);
        }
        if !holds {
            return Err(refused(record, at + ENTRY * number, least, network));
        }
        least = key + 1;
        each(entry);
    }
    if records.len() < network.entries {
        return Err(not_there(bytes, at + ENTRY * records.len(), b"EN"));
    }
    Ok(records)
}

/// Those of H3 certificates, in a place of their own for the speed of the others.
#[inline(never)]
pub fn goal_entries<'a>(
    bytes: &'a [u8],
    at: usize,
    network: &Network,
    each: impl FnMut(Entry),
) -> Result<&'a [[u8; ENTRY]], Report> {
    entries::<true, true>(bytes, at, network, each)
}

/// The keys of entries whose names exist ascend as their pairs do.
#[inline]
fn key(entry: Entry) -> usize {
    usize::from(entry.cell) * 8 + usize::from(entry.mode)
}

/// Do cell, mode, signal and next mode exist?
#[inline]
fn names_exist(entry: Entry, network: &Network) -> bool {
    (usize::from(entry.cell) < network.cells)
        & (usize::from(entry.mode) < network.modes)
        & (usize::from(entry.signal) < network.signals)
        & (usize::from(entry.next) < network.modes)
}

/// Does the next mode remember the entry's own signal?
#[inline]
fn is_remembered(entry: Entry, network: &Network) -> bool {
    network.memory[usize::from(entry.next) & 7] == entry.signal
}

/// Why the record of an entry fails: by its mark, else by a name, else by a key below the least, else by its next mode's
/// memory, else by its next mode's goal number.
#[cold]
fn refused(record: &[u8; ENTRY], at: usize, least: usize, network: &Network) -> Report {
    let entry = Entry::of(record);
    let number = if record[..2] != *b"EN" {
        2
    } else if !names_exist(entry, network) {
        9
    } else if key(entry) < least {
        22
    } else if !is_remembered(entry, network) {
        23
    } else {
        24
    };
    Report::at(number, at)
}
