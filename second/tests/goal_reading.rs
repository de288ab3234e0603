//! Reading H3 certificates: the first mark and the MD records with their goals, in their order and places.

mod common;

use common::goals::{as_h2, goals, goals_text_with, goals_with, poked, CORRIDOR, GOALS_TEXT};
use common::large::Large;
use common::{as_hd, bytes, refused};
use second::certificate::{Goal, Kind};
use second::conditions::read_sound;
use second::reading::read;
use second::{judge, Report, State};

/// Offsets of the H3 certificate's records: H3, LK, SG, MD, GR, AR, EN and ZZ.
const STARTS: [usize; 19] = [
    0, 9, 23, 26, 29, 35, 41, 47, 54, 60, 69, 78, 87, 96, 105, 114, 123, 132, 141,
];
const LK: usize = 9;
const MD: [usize; 3] = [29, 35, 41];

#[test]
fn what_is_read() {
    let bytes = goals();
    assert_eq!(bytes.len(), 143);
    for (start, mark) in STARTS.into_iter().zip([
        b"H3", b"LK", b"SG", b"SG", b"MD", b"MD", b"MD", b"GR", b"AR", b"EN",
    ]) {
        assert_eq!(&bytes[start..start + 2], mark, "{start}");
    }
    let certificate = read(&bytes).unwrap();
    assert_eq!(certificate.kind, Kind::H3);
    assert_eq!(certificate.links[0].start, Some(2));
    assert_eq!(certificate.links[0].goal, 3);
    assert_eq!(certificate.memory, [0, 0, 1]);
    let goal = |number, amount| Goal {
        number,
        amounts: vec![amount],
    };
    assert_eq!(certificate.goals, [goal(0, 5), goal(1, 8), goal(1, 8)]);
    let corridor = read(&common::bytes(CORRIDOR)).unwrap();
    assert_eq!(corridor.goals[0].amounts, [5, 10]);
    assert_eq!(corridor.goals[1].amounts, [10, 5]);
    for text in [as_h2(GOALS_TEXT), as_hd(&as_h2(GOALS_TEXT))] {
        let other = read(&common::bytes(&text)).unwrap();
        assert!(other.goals.is_empty());
        assert_eq!(other.entries, certificate.entries);
    }
}

/// Every pair of bytes as the first mark.
#[test]
fn first_marks() {
    let mut bytes = goals();
    for first in 0..=255 {
        for second in 0..=255 {
            bytes[..2].copy_from_slice(&[first, second]);
            let due = match &bytes[..2] {
                b"H3" => None,
                // The next mark is due where the start flow stands, or where the first goal number does.
                b"HD" => Some(Report::at(2, LK + 12)),
                b"H2" => Some(Report::at(2, MD[0] + 3)),
                _ => Some(Report::at(2, 0)),
            };
            assert_eq!(read(&bytes).err(), due, "{first} {second}");
        }
    }
    refused(b"3", 1, 0);
    refused(b"H3", 1, 0);
    refused(b"H3\x01\x00\x01\x01\x01\x00", 1, 0);
    refused(b"H3\x01\x00\x01\x01\x01\x00\x01", 1, 9);
    refused(b"H3\x09\x00\x01\x01\x01\x00\x01", 3, 0);
    refused(b"H3\x01\x00\x01\x09\x01\x00\x01", 3, 0);
}

#[test]
fn every_prefix_is_short() {
    let bytes = goals();
    for length in 0..bytes.len() {
        let start = STARTS.iter().rfind(|&&start| start <= length);
        refused(&bytes[..length], 1, *start.unwrap());
    }
    refused(&[&bytes[..], &[0]].concat(), 2, 143);
}

#[test]
fn wrong_marks() {
    for start in STARTS {
        for byte in 0..2 {
            refused(&poked(start + byte, b"x"), 2, start);
            // The mark comes before the rest of the record.
            refused(&poked(start + byte, b"x")[..start + 2], 2, start);
        }
    }
}

/// LK goals are tested as ever, though nothing else is done with them.
#[test]
fn goals_of_links() {
    for goal in 0..=10 {
        let bytes = goals_with("goal 3", &format!("goal {goal}"));
        assert_eq!(judge(&bytes), judge(&goals()), "{goal}");
    }
    for goal in [11, 255, 256, 65_535] {
        refused(&goals_with("goal 3", &format!("goal {goal}")), 4, LK);
    }
    refused(&goals_with("start 2", "start 7"), 4, LK);
    // The LK goal is held against safe even where every mode's goal is lower.
    refused(&goals_with("safe 10 goal 3", "safe 8 goal 9"), 4, LK);
}

/// Modes of other lengths: the next mark is not where it is due.
#[test]
fn modes_of_other_lengths() {
    let second = "mode signal 0 goal 1 goals 8";
    let more = goals_with(second, "mode signal 0 goal 1 goals 8 8");
    refused(&more, 2, MD[2]);
    // MD stands where the goal, or the goal number, is due.
    for fewer in ["mode signal 0 goal 1 goals", "mode signal 0"] {
        refused(&goals_with(second, fewer), 6, MD[1]);
    }
    // An H2 certificate has no goals.
    let h2 = GOALS_TEXT.replace("H3", "H2");
    refused(&bytes(&h2), 2, MD[0] + 3);
    let missing = GOALS_TEXT.replace("header kind H3", "header kind H3 modes 3");
    let missing = missing.replacen("mode signal 1 goal 1 goals 8\n", "", 1);
    refused(&bytes(&missing), 2, MD[2]);
    let more = goals_text_with("header kind H3", "header kind H3 modes 2");
    refused(&bytes(&more), 2, MD[2]);
}

/// Room for the greatest records of every kind, which no certificate has all at once.
#[test]
fn longest() {
    let network = 9 + 8 * 14 + 32 * 7 + 16 * 3 + 8 * (4 + 2 * 8);
    let sum = network + 8 * (3 + 2 * 14) + 8 * 34 + 4_096 * 9 + 2;
    assert_eq!(State::CAPACITY, sum);
    assert_eq!(State::CAPACITY, 37_939);
    let large = Large {
        counts: [15, 15, 15, 1, 1, 1, 1, 1],
        modes: 8,
        rank: |_, _| Some(0),
    };
    let bytes = large.goal_bytes();
    assert_eq!(bytes.len(), 37_799);
    assert_eq!(large.start_bytes().len(), 37_663);
    let certificate = read_sound(&bytes).unwrap();
    assert_eq!(
        (certificate.entries.len(), certificate.goals.len()),
        (4_096, 8)
    );
    let state = State::by_hand(&bytes, bytes.len(), 0);
    let mut buffer = vec![0; bytes.len() + 1];
    assert_eq!(state.write(&mut buffer, 1), Report::at(0, bytes.len()));
    assert_eq!(buffer[1..], bytes);
}
