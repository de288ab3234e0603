//! EN records in two readings: the cabinet's skips the rank, the bench's has it.

use super::reader::{Reader, Record, MARK};
use crate::cabinet::CabinetEntry;
use crate::certificate::{Certificate, Entry};
use crate::report::Report;

/// Bytes after the mark: cell, mode, signal, next mode, rank.
const ENTRY: usize = 7;

/// The cabinet's reading.
fn cabinet_entry(record: &Record) -> CabinetEntry {
    CabinetEntry {
        cell: record.wide(0),
        mode: record.byte(2),
        signal: record.byte(3),
        next: record.byte(4),
    }
}

/// The bench's reading: what the cabinet's has, and the rank.
fn bench_entry(record: &Record) -> Entry {
    let CabinetEntry {
        cell,
        mode,
        signal,
        next,
    } = cabinet_entry(record);
    Entry {
        cell,
        mode,
        signal,
        next,
        rank: record.wide(5),
    }
}

/// The cabinet's entries of bytes that have been read whole: so many records stand right before ZZ.
pub fn cabinet_entries(bytes: &[u8], count: usize) -> Option<Vec<CabinetEntry>> {
    let first = bytes.len().checked_sub(count * (MARK + ENTRY) + MARK)?;
    let mut reader = Reader::at(bytes, first);
    let records = (0..count).map(|_| reader.record(b"EN", ENTRY).ok());
    records
        .map(|record| Some(cabinet_entry(&record?)))
        .collect()
}

/// Reads an entry for the bench; the certificate holds the entries before it. 9 is for names that do not exist, 22 for
/// a pair that is not above the one before, 23 for a next mode that remembers another signal than the entry's, 24 for a
/// next mode with another goal number than its rank asks for.
pub fn read_entry(
    reader: &mut Reader,
    certificate: &Certificate,
    cells: usize,
) -> Result<Entry, Report> {
    let record = reader.record(b"EN", ENTRY)?;
    let entry = bench_entry(&record);
    record.must(9, usize::from(entry.cell) < cells)?;
    record.must(9, entry.mode < certificate.modes)?;
    record.must(9, usize::from(entry.signal) < certificate.signals.len())?;
    record.must(9, entry.next < certificate.modes)?;
    if let Some(before) = certificate.entries.last() {
        record.must(22, (before.cell, before.mode) < (entry.cell, entry.mode))?;
    }
    if let Some(&remembered) = certificate.memory.get(usize::from(entry.next)) {
        record.must(23, remembered == entry.signal)?;
    }
    record.must(24, certificate.keeps_turn(&entry))?;
    Ok(entry)
}
