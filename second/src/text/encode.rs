//! Text to bytes.

use super::field::HEADER;
use super::line::records_of_line;
use super::record::Record;
use super::words::numbered_lines;
use super::Fault;
use crate::certificate::Kind;

/// Turns the text of a certificate into its bytes.
pub fn encode(text: &str) -> Result<Vec<u8>, Fault> {
    let mut records = Vec::new();
    for (line, mut words) in numbered_lines(text) {
        let of_line = records_of_line(&mut words).map_err(|what| Fault::new(line, what))?;
        records.extend(of_line);
    }
    let last = text.lines().count().max(1);
    let records = records_of(records).map_err(|what| Fault::new(last, what))?;
    bytes_of(&records).map_err(|what| Fault::new(last, what))
}

/// The records of a whole text: an `end` must be there, and a header comes first if there is none.
pub fn records_of(mut records: Vec<Record>) -> Result<Vec<Record>, String> {
    if !records.contains(&Record::End) {
        return Err("expected an `end` line before the end of the text".to_string());
    }
    if !records.iter().any(|record| record.kind() == "header") {
        let header = Record::Header {
            kind: Kind::Hd,
            counts: [None; 6],
        };
        records.insert(0, header);
    }
    Ok(records)
}

/// The bytes of all records. A count that no header gives must fit its field.
pub fn bytes_of(records: &[Record]) -> Result<Vec<u8>, String> {
    let taken = counts_taken(records);
    let mut bytes = Vec::new();
    for record in records {
        let mut counts = [0; 6];
        if let Record::Header { counts: given, .. } = record {
            counts = header_counts(given, &taken)?;
        }
        record.put(&counts, &mut bytes);
    }
    Ok(bytes)
}

/// The counts given, and for the others those taken from the lines.
fn header_counts(given: &[Option<u16>; 6], taken: &[usize; 6]) -> Result<[u16; 6], String> {
    let mut counts = [0; 6];
    for (place, field) in HEADER.iter().enumerate() {
        let count = given[place].map_or(taken[place], usize::from);
        if count > usize::from(field.most) {
            return Err(format!(
                "expected {} to be at most {}, found {count} by the lines",
                field.name, field.most
            ));
        }
        counts[place] = count as u16;
    }
    Ok(counts)
}

/// The counts of the header as the lines have them.
fn counts_taken(records: &[Record]) -> [usize; 6] {
    let of_kind = |kind| records.iter().filter(|r| r.kind() == kind).count();
    let modes = match of_kind("mode") {
        0 => modes_of_entries(records),
        count => count,
    };
    [
        of_kind("link"),
        of_kind("turn"),
        of_kind("signal"),
        modes,
        of_kind("arrivals"),
        of_kind("entry"),
    ]
}

/// 1 + the greatest mode or next mode of the entries, and 1 if there is none.
fn modes_of_entries(records: &[Record]) -> usize {
    let modes = records.iter().map(|record| match record {
        Record::Entry([_, mode, _, next, _]) => 1 + usize::from(*mode.max(next)),
        _ => 1,
    });
    modes.max().unwrap_or(1)
}
