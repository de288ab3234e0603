//! Refusals 9 and 22: names of entries that do not exist, and the order of their pairs.

mod common;

use common::{bytes, l_with, CROSSING, L_TEXT};
use second::reading::read;
use second::{judge, listing, Report};

/// Three cells, three modes and two signals.
const NETWORK: &str = "\
header modes 3
link tail 0 head 1 cap 10 flow 6 safe 10 goal 10
signal green 0
signal green none
grid 5 8
arrivals 0-2
";
/// Offset of the first EN record.
const FIRST: usize = 9 + 12 + 2 * 3 + 7 + 6;

/// An EN line by its cell, mode, signal and next mode.
fn entry([cell, mode, signal, next]: [u16; 4]) -> String {
    format!("entry cell {cell} mode {mode} signal {signal} next {next} rank 0\n")
}

/// The network with these entries.
fn with(entries: &[[u16; 4]]) -> Vec<u8> {
    let lines: String = entries.iter().copied().map(entry).collect();
    bytes(&format!("{NETWORK}{lines}end\n"))
}

/// The network with entries for these pairs.
fn with_pairs(pairs: &[[u16; 2]]) -> Vec<u8> {
    let entries: Vec<[u16; 4]> = pairs
        .iter()
        .map(|&[cell, mode]| [cell, mode, 1, 0])
        .collect();
    with(&entries)
}

fn at(number: u32, entry: usize) -> Report {
    Report::at(number, FIRST + 9 * entry)
}

fn refused(bytes: &[u8], number: u32, entry: usize) {
    assert_eq!(read(bytes), Err(at(number, entry)), "{bytes:02X?}");
    assert_eq!(judge(bytes).report, at(number, entry), "{bytes:02X?}");
}

fn can_be_read(pairs: &[[u16; 2]]) {
    assert!(read(&with_pairs(pairs)).is_ok(), "{pairs:?}");
}

/// Each name at its least missing value and above it, in the first, a middle and the last entry.
#[test]
fn missing_names() {
    let good = [[0, 0, 0, 0], [1, 1, 1, 1], [2, 2, 1, 2]];
    assert!(read(&with(&good)).is_ok());
    for (name, values) in [
        (0, &[3, 4, 255, 256, 257, 4_096, 65_535][..]),
        (1, &[3, 4, 8, 128, 255]),
        (2, &[2, 3, 16, 128, 255]),
        (3, &[3, 4, 8, 128, 255]),
    ] {
        for number in 0..3 {
            for &value in values {
                let mut entries = good;
                entries[number][name] = value;
                refused(&with(&entries), 9, number);
            }
        }
    }
}

#[test]
fn greatest_names() {
    assert!(read(&with(&[[2, 2, 1, 2]])).is_ok());
    assert!(read(&with(&[[0, 2, 1, 2], [2, 0, 1, 2]])).is_ok());
}

#[test]
fn equal_pairs() {
    refused(&with_pairs(&[[0, 0], [0, 0]]), 22, 1);
    refused(&with_pairs(&[[2, 2], [2, 2]]), 22, 1);
    refused(&with_pairs(&[[0, 0], [1, 1], [1, 1], [2, 0]]), 22, 2);
    // Other fields do not set equal pairs apart.
    refused(&with(&[[1, 1, 0, 0], [1, 1, 1, 2]]), 22, 1);
}

#[test]
fn cell_falls() {
    refused(&with_pairs(&[[1, 0], [0, 0]]), 22, 1);
    refused(&with_pairs(&[[0, 0], [2, 2], [1, 2]]), 22, 2);
    // The mode falls with the cell, or rises while the cell falls.
    refused(&with_pairs(&[[1, 2], [0, 1]]), 22, 1);
    refused(&with_pairs(&[[1, 0], [0, 1]]), 22, 1);
    refused(&with_pairs(&[[0, 1], [2, 0], [1, 2]]), 22, 2);
}

#[test]
fn mode_falls_within_a_cell() {
    refused(&with_pairs(&[[0, 1], [0, 0]]), 22, 1);
    refused(&with_pairs(&[[1, 0], [1, 2], [1, 1]]), 22, 2);
}

#[test]
fn pairs_that_ascend() {
    can_be_read(&[[0, 0], [0, 1], [0, 2], [1, 0], [2, 0], [2, 1]]);
    // The mode falls where the cell rises.
    can_be_read(&[[0, 2], [1, 0]]);
    can_be_read(&[[0, 1], [1, 0], [2, 0]]);
    // No pair is too high for the first entry.
    can_be_read(&[[2, 2]]);
}

/// Cells are compared as whole numbers, not byte by byte.
#[test]
fn cells_of_two_bytes() {
    let fifteen = "grid 1 2 3 4 5 6 7 8 9 10 11 12 13 14\n";
    let link = "link tail 0 head 1 cap 20 flow 1 safe 20 goal 20\n".repeat(3);
    let head = format!(
        "header modes 3\n{link}signal green none\n{fifteen}{fifteen}grid 1\narrivals 0-0 0-0 0-0\n"
    );
    let start = 9 + 3 * 12 + 3 + 2 * 31 + 5 + 14;
    let of = |pairs: [[u16; 2]; 2]| {
        let lines = pairs.map(|[cell, mode]| entry([cell, mode, 0, 0])).concat();
        read(&bytes(&format!("{head}{lines}end\n")))
    };
    assert!(of([[255, 2], [256, 0]]).is_ok());
    assert!(of([[255, 0], [449, 0]]).is_ok());
    for pairs in [
        [[256, 0], [255, 0]],
        [[256, 0], [1, 2]],
        [[256, 1], [256, 0]],
        [[449, 2], [449, 2]],
    ] {
        assert_eq!(of(pairs), Err(Report::at(22, start + 9)), "{pairs:?}");
    }
    assert_eq!(of([[256, 0], [450, 0]]), Err(Report::at(9, start + 9)));
}

#[test]
fn a_missing_name_comes_before_the_order() {
    for faulty in [[0, 3, 0, 0], [0, 255, 0, 0], [1, 1, 2, 0], [1, 0, 0, 3]] {
        refused(&with(&[[1, 1, 0, 0], faulty]), 9, 1);
    }
    // A pair with a missing cell, or a missing mode in the same cell, is above the one before.
    refused(&with_pairs(&[[1, 1], [3, 0]]), 9, 1);
    refused(&with_pairs(&[[1, 1], [1, 3]]), 9, 1);
}

/// Record after record: the first faulty entry decides.
#[test]
fn one_faulty_entry_after_another() {
    for later in [[3, 0, 0, 0], [2, 3, 0, 0], [2, 0, 2, 0], [2, 0, 0, 3]] {
        let entries = [[1, 0, 0, 0], [0, 0, 0, 0], later];
        refused(&with(&entries), 22, 1);
    }
    refused(&with_pairs(&[[0, 0], [0, 3], [0, 0]]), 9, 1);
    refused(&with_pairs(&[[2, 0], [1, 0], [0, 0]]), 22, 1);
}

#[test]
fn order_before_faults_of_later_records() {
    let whole = with_pairs(&[[1, 0], [0, 0], [2, 0]]);
    let (faulty, third) = (FIRST + 9, FIRST + 2 * 9);
    for length in third..whole.len() {
        refused(&whole[..length], 22, 1);
    }
    for mark in [third, third + 1, third + 9, third + 10] {
        let mut marked = whole.clone();
        marked[mark] = b'x';
        refused(&marked, 22, 1);
    }
    refused(&[&whole[..], &[0]].concat(), 22, 1);
    // The entry's own mark and bytes come first.
    for length in faulty..third {
        assert_eq!(judge(&whole[..length]).report, Report::at(1, faulty));
    }
    let mut marked = whole.clone();
    marked[faulty] = b'x';
    assert_eq!(judge(&marked).report, Report::at(2, faulty));
}

#[test]
fn order_before_conditions_and_judging() {
    let one = "entry cell 0..5 mode 0 signal 0 next 1 rank 0\n";
    let swapped = [[1, 0, 0, 1], [0, 0, 0, 1]].map(entry).concat();
    let start = 9 + 3 * 12 + 2 * 7 + 2 * 3 + 7 + 5 + 3 + 2 * 14;
    for (number, old, new) in [
        (10, "pull 40", "pull 251"),
        (11, "pull 34", "pull 33"),
        (12, "safe 40 goal 40", "safe 39 goal 39"),
    ] {
        let text = CROSSING.replace(old, new);
        assert_eq!(judge(&bytes(&text)).report.number, number);
        let text = text.replace(one, &swapped);
        assert_eq!(judge(&bytes(&text)).report, Report::at(22, start + 9));
    }
}

#[test]
fn places_in_l() {
    let second = "entry cell 1 mode 0";
    let equal = l_with(second, "entry cell 0 mode 0");
    assert_eq!(judge(&equal).report, Report::at(22, 46));
    assert_eq!(listing(&equal).0, "refused 22 46 0 0\n");
    let absent = bytes(&format!(
        "header modes 1\n{}",
        L_TEXT.replace(second, "entry cell 1 mode 1")
    ));
    assert_eq!(judge(&absent).report, Report::at(9, 46));
    assert_eq!(listing(&absent).0, "refused 9 46 0 0\n");
    // A rank may be any value.
    assert_eq!(judge(&l_with("rank 2", "rank 65535")).report.number, 0);
}
