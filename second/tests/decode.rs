//! Bytes to text, as the command does it.

mod common;

use common::large::Large;
use common::program::{ends, ends_with_2, second};
use common::{bytes, crossing, l_with, start, start_crossing, start_with, L};
use std::fs;
use std::path::Path;

/// A file of this package or beside it.
fn stored(name: &str) -> Vec<u8> {
    let path = Path::new(env!("CARGO_MANIFEST_DIR")).join(name);
    fs::read(&path).unwrap_or_else(|error| panic!("{}: {error}", path.display()))
}

/// What `decode` prints is turned into the same bytes by `encode`.
fn goes_round(certificate: &[u8]) {
    let text = second(&["decode", "-"], certificate);
    assert_eq!(text.status.code(), Some(0));
    assert!(text.stderr.is_empty());
    ends(&["encode", "-"], &text.stdout, 0, certificate, "");
}

#[test]
fn stored_text_is_made_again() {
    let example = second(&["encode", "-"], &stored("../cases/two-junctions.txt"));
    let due = stored("tests/data/two-junctions.txt");
    ends(&["decode", "-"], &example.stdout, 0, &due, "");
}

#[test]
fn round_trips() {
    goes_round(&L);
    goes_round(&crossing());
    // Refused by judging, but it can be read.
    goes_round(&l_with("arrivals 0-2", "arrivals 0-3"));
    goes_round(&start());
    goes_round(&bytes(&start_crossing()));
    goes_round(&start_with("start 2", "start 6"));
}

#[test]
fn largest() {
    let large = Large {
        counts: [15, 15, 2, 1, 1, 1, 1, 1],
        modes: 8,
        rank: |cell, mode| Some((cell * 8 + mode) as u16),
    };
    goes_round(&large.bytes());
    goes_round(&large.start_bytes());
    let cells = Large {
        counts: [8, 8, 4, 4, 2, 2, 1, 1],
        modes: 1,
        rank: |_, _| Some(65_535),
    };
    let cells = cells.bytes();
    assert_eq!(
        cells.len(),
        9 + 8 * 12 + 32 * 7 + 16 * 3 + 8 * 3 + 22 * 2 + 8 * 34 + 4_096 * 9 + 2
    );
    goes_round(&cells);
    let longest = Large {
        counts: [15, 15, 15, 1, 1, 1, 1, 1],
        modes: 8,
        rank: |_, _| Some(0),
    };
    assert_eq!(longest.start_bytes().len(), 37_663);
    goes_round(&longest.start_bytes());
}

#[test]
fn what_cannot_be_read() {
    ends(&["decode", "-"], b"", 1, b"", "-: refused 1 0 0 0\n");
    ends(&["decode", "-"], &L[..65], 1, b"", "-: refused 1 64 0 0\n");
    let faulty = bytes("header links 9\nend");
    ends(&["decode", "-"], &faulty, 1, b"", "-: refused 3 0 0 0\n");
    let repeated = l_with("cell 1 mode", "cell 0 mode");
    ends(
        &["decode", "-"],
        &repeated,
        1,
        b"",
        "-: refused 22 46 0 0\n",
    );
    let other = start_with("next 2 rank 3", "next 1 rank 3");
    ends(&["decode", "-"], &other, 1, b"", "-: refused 23 87 0 0\n");
    ends_with_2(
        &["decode", "no/such/file"],
        b"",
        "no/such/file: cannot be read: ",
    );
}
