//! Reading H2 certificates: the first mark, start flows and MD records, with their order and places.

mod common;

use common::large::Large;
use common::{as_hd, bytes, refused, start, start_crossing, start_with, START_TEXT};
use second::certificate::Kind;
use second::conditions::read_sound;
use second::reading::read;
use second::{judge, Report, State, Verdict};

/// Offsets of the H2 certificate's records: H2, LK, SG, MD, GR, AR, EN and ZZ.
const STARTS: [usize; 16] = [
    0, 9, 23, 26, 29, 32, 35, 38, 45, 51, 60, 69, 78, 87, 96, 105,
];
const LK: usize = 9;
const MD: [usize; 3] = [29, 32, 35];
const GR: usize = 38;

fn poked(offset: usize, new: &[u8]) -> Vec<u8> {
    let mut bytes = start();
    bytes[offset..offset + new.len()].copy_from_slice(new);
    bytes
}

#[test]
fn what_is_read() {
    let bytes = start();
    assert_eq!(bytes.len(), 107);
    for (start, mark) in STARTS.into_iter().zip([
        b"H2", b"LK", b"SG", b"SG", b"MD", b"MD", b"MD", b"GR", b"AR",
    ]) {
        assert_eq!(&bytes[start..start + 2], mark, "{start}");
    }
    let certificate = read(&bytes).unwrap();
    assert_eq!(certificate.kind, Kind::H2);
    assert_eq!(certificate.links[0].start, Some(2));
    assert_eq!(certificate.memory, [0, 1, 0]);
    let hd = read(&common::bytes(&as_hd(START_TEXT))).unwrap();
    assert_eq!(hd.kind, Kind::Hd);
    assert_eq!(hd.links[0].start, None);
    assert!(hd.memory.is_empty());
    assert_eq!(hd.entries, certificate.entries);
}

/// Every pair of bytes as the first mark.
#[test]
fn first_marks() {
    let mut bytes = start();
    for first in 0..=255 {
        for second in 0..=255 {
            bytes[..2].copy_from_slice(&[first, second]);
            let due = match &bytes[..2] {
                b"H2" => None,
                // Its links have 12 bytes, so the next mark is due where the start flow stands.
                b"HD" => Some(Report::at(2, 21)),
                // Its modes have four bytes with one link, and two more.
                b"H3" => Some(Report::at(6, MD[0])),
                _ => Some(Report::at(2, 0)),
            };
            assert_eq!(read(&bytes).err(), due, "{first} {second}");
        }
    }
    refused(b"H", 1, 0);
    refused(b"2", 1, 0);
    refused(b"H4", 2, 0);
    refused(b"H2", 1, 0);
    refused(b"H2\x01\x00\x01\x01\x01\x00", 1, 0);
    refused(b"H2\x01\x00\x01\x01\x01\x00\x01", 1, 9);
}

#[test]
fn counts() {
    for (offset, values) in [
        (2, &[0, 9, 255][..]),
        (3, &[33, 255]),
        (4, &[0, 17]),
        (5, &[0, 9]),
        (6, &[0, 9]),
    ] {
        for &value in values {
            refused(&poked(offset, &[value]), 3, 0);
            refused(&poked(offset, &[value])[..9], 3, 0);
        }
    }
    refused(&poked(7, &[0x00, 0x00]), 3, 0);
    refused(&poked(7, &[0x10, 0x01]), 3, 0);
}

#[test]
fn every_prefix_is_short() {
    let bytes = start();
    for length in 0..bytes.len() {
        let start = STARTS.iter().rfind(|&&start| start <= length);
        refused(&bytes[..length], 1, *start.unwrap());
    }
    let long = [&bytes[..], &[0]].concat();
    refused(&long, 2, 107);
}

#[test]
fn wrong_marks() {
    for start in STARTS {
        for byte in 0..2 {
            refused(&poked(start + byte, b"x"), 2, start);
            // The mark comes before the rest of the record.
            refused(&poked(start + byte, b"x")[..start + 2], 2, start);
        }
    }
}

#[test]
fn start_flows() {
    for value in [0, 7, 10, 11, 256, 512, 65_535] {
        refused(&start_with("start 2", &format!("start {value}")), 4, LK);
    }
    for value in 1..=6 {
        let bytes = start_with("start 2", &format!("start {value}"));
        assert_eq!(read(&bytes).unwrap().links[0].start, Some(value));
    }
    // The record must be whole before its fields are tested.
    refused(&start_with("start 2", "start 0")[..22], 1, LK);
    refused(&start_with("start 2", "start 0")[..23], 4, LK);
    // The other fields are tested as in HD.
    for (old, new) in [
        ("head 1", "head 0"),
        ("cap 10", "cap 5"),
        ("flow 6", "flow 0"),
        ("flow 6", "flow 11"),
        ("flow 6", "flow 1"),
        ("safe 10", "safe 11"),
        ("goal 5", "goal 11"),
    ] {
        refused(&start_with(old, new), 4, LK);
    }
}

/// The start flow of each link against its own flow.
#[test]
fn start_flows_of_later_links() {
    let text = "header kind H2
         link tail 0 head 1 cap 10 flow 9 safe 10 goal 10 start 9
         link tail 0 head 1 cap 10 flow 3 safe 10 goal 10 start 3
         link tail 0 head 1 cap 10000 flow 10000 safe 10000 goal 10000 start 10000
         signal green none
         mode signal 0
         grid
         grid
         grid
         arrivals 0-0 0-0 0-0
         entry cell 0 mode 0 signal 0 next 0 rank 0
         end";
    assert_eq!(judge(&bytes(text)), Verdict::accepted(1, 0));
    for (old, new, link) in [
        ("start 9", "start 10", 0),
        ("start 3", "start 4", 1),
        ("start 3", "start 9", 1),
        ("start 10000", "start 10001", 2),
        ("start 10000", "start 0", 2),
    ] {
        refused(&bytes(&text.replace(old, new)), 4, 9 + 14 * link);
    }
}

/// A link of the other kind's length.
#[test]
fn links_of_other_lengths() {
    // What follows the short link stands for its start flow and exceeds every flow.
    refused(&start_with(" start 2", ""), 4, LK);
    let wide = START_TEXT.replace(
        "cap 10 flow 6 safe 10 goal 5 start 2",
        "cap 10000 flow 10000 safe 10 goal 5",
    );
    refused(&bytes(&wide), 4, LK);
    let long = as_hd(START_TEXT).replace("goal 5", "goal 5 start 2");
    refused(&bytes(&long), 2, LK + 12);
}

#[test]
fn signals_of_modes() {
    for (mode, offset) in MD.into_iter().enumerate() {
        for signal in [2, 3, 16, 128, 255] {
            let faulty = poked(offset + 2, &[signal]);
            refused(&faulty, 6, offset);
            refused(&faulty[..offset + 3], 6, offset);
            refused(&faulty[..offset + 2], 1, offset);
        }
        // A later fault of the same kind does not matter, nor does one of a later record.
        let mut faulty = poked(offset + 2, &[2]);
        for later in &MD[mode + 1..] {
            faulty[later + 2] = 2;
        }
        faulty[GR + 2] = 0;
        refused(&faulty, 6, offset);
    }
    // A fault of a signal comes before.
    let mut faulty = poked(MD[0] + 2, &[2]);
    faulty[28] = 2;
    refused(&faulty, 6, 26);
}

#[test]
fn missing_and_extra_modes() {
    let header = |modes: usize| format!("header kind H2 modes {modes}\n");
    let given = |text: &str| bytes(&text.replace("header kind H2\n", &header(3)));
    for line in ["mode signal 1\n", "mode signal 0\nmode signal 1\n"] {
        // The grid's mark stands where a mode is due.
        let count = line.lines().count();
        refused(&given(&START_TEXT.replace(line, "")), 2, MD[3 - count]);
    }
    let more = START_TEXT.replace("grid 5 8", "mode signal 0\ngrid 5 8");
    refused(&given(&more), 2, GR);
    // Before the signals, between them, and after the grid.
    for (from, to, a) in [
        ("signal green 0\n", "mode signal 0\nsignal green 0\n", 23),
        (
            "signal green none\n",
            "mode signal 0\nsignal green none\n",
            26,
        ),
        ("grid 5 8\n", "mode signal 0\ngrid 5 8\n", GR),
        ("arrivals", "mode signal 0\narrivals", 45),
    ] {
        refused(&given(&START_TEXT.replace(from, to)), 2, a);
    }
    // An HD certificate has none.
    let hd = as_hd(START_TEXT).replace("grid 5 8", "mode signal 0\ngrid 5 8");
    refused(&bytes(&hd.replace("header", "header modes 3")), 2, 27);
}

/// Conditions 10 and 11 have flow where a start flow stands too.
#[test]
fn conditions_have_flow() {
    let text = start_crossing().replace("start 5", "start 1");
    assert!(read_sound(&bytes(&text)).is_ok());
    // 100 × 10 is above 33 × 30, though 100 × 1 is below 33 × 39.
    let flow = text.replace("pull 34", "pull 33");
    assert_eq!(judge(&bytes(&flow)).report, Report::at(11, 0));
    // 40 × 250 is 10,000.
    assert!(read_sound(&bytes(&text.replace("pull 40", "pull 250"))).is_ok());
    let sum = text.replace("pull 40", "pull 251");
    assert_eq!(judge(&bytes(&sum)).report, Report::at(10, 0).and(2));
}

#[test]
fn longest() {
    let large = Large {
        counts: [15, 15, 15, 1, 1, 1, 1, 1],
        modes: 8,
        rank: |_, _| Some(1),
    };
    let bytes = large.start_bytes();
    assert_eq!(bytes.len(), 37_663);
    assert_eq!(large.bytes().len(), 37_623);
    let certificate = read_sound(&bytes).unwrap();
    assert_eq!(
        (certificate.entries.len(), certificate.memory.len()),
        (4_096, 8)
    );
    let state = State::by_hand(&bytes, bytes.len(), 0);
    let mut buffer = vec![0; bytes.len() + 1];
    assert_eq!(state.write(&mut buffer, 1), Report::at(0, bytes.len()));
    assert_eq!(buffer[1..], bytes);
}
