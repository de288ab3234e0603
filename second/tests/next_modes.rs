//! Refusal 23: an entry's next mode remembers another signal than the entry's.

mod common;

use common::{as_hd, bytes, refused, start_crossing};
use second::reading::read;
use second::{judge, listing, Report};

/// Three cells; modes remember signals 0, 1 and 0, and signals 0 and 2 have the same green byte.
const NETWORK: &str = "\
header kind H2
link tail 0 head 1 cap 10 flow 6 safe 10 goal 10 start 1
signal green 0
signal green none
signal green 0
mode signal 0
mode signal 1
mode signal 0
grid 5 8
arrivals 0-2
";
/// Offset of the first EN record.
const FIRST: usize = 9 + 14 + 3 * 3 + 3 * 3 + 7 + 6;

/// The network with entries by cell, mode, signal and next mode.
fn text_with(entries: &[[u16; 4]]) -> String {
    let lines = entries.iter().map(|[cell, mode, signal, next]| {
        format!("entry cell {cell} mode {mode} signal {signal} next {next} rank 0\n")
    });
    format!("{NETWORK}{}end\n", lines.collect::<String>())
}

fn with(entries: &[[u16; 4]]) -> Vec<u8> {
    bytes(&text_with(entries))
}

fn refused_entry(entries: &[[u16; 4]], number: u32, entry: usize) {
    refused(&with(entries), number, FIRST + 9 * entry);
}

/// The next mode's signal by its number; the entry's own mode and the green bytes decide nothing.
#[test]
fn next_modes_and_signals() {
    let memory = [0, 1, 0];
    for mode in 0..3 {
        for signal in 0..3 {
            for (next, remembered) in memory.into_iter().enumerate() {
                let entry = [0, mode, signal, next as u16];
                let due = match signal == remembered {
                    true => None,
                    false => Some(Report::at(23, FIRST)),
                };
                assert_eq!(read(&with(&[entry])).err(), due, "{entry:?}");
                let hd = bytes(&as_hd(&text_with(&[entry])));
                let modes = 1 + entry[1].max(entry[3]);
                assert_eq!(read(&hd).unwrap().modes, modes as u8);
            }
        }
    }
}

#[test]
fn first_middle_and_last_entry() {
    let good = [[0, 0, 0, 0], [1, 1, 1, 1], [2, 2, 0, 2]];
    assert!(read(&with(&good)).is_ok());
    for number in 0..3 {
        for (signal, next) in [(0, 1), (1, 0), (1, 2), (2, 0), (2, 1), (2, 2)] {
            let mut entries = good;
            entries[number][2] = signal;
            entries[number][3] = next;
            refused_entry(&entries, 23, number);
        }
    }
    // The first faulty entry decides.
    refused_entry(&[[0, 0, 1, 0], [1, 0, 1, 0]], 23, 0);
    refused_entry(&[[0, 0, 0, 0], [1, 0, 1, 0], [2, 0, 1, 0]], 23, 1);
}

#[test]
fn after_9_and_22() {
    // A missing name in the same entry; with a missing next mode there is no signal to compare.
    for faulty in [
        [3, 0, 1, 0],
        [0, 3, 1, 0],
        [0, 0, 3, 0],
        [0, 0, 0, 3],
        [0, 0, 255, 255],
    ] {
        refused_entry(&[faulty], 9, 0);
    }
    // A pair that is not above the one before, in the same entry.
    for pair in [[1, 1], [1, 0], [0, 2]] {
        refused_entry(&[[1, 1, 0, 0], [pair[0], pair[1], 1, 0]], 22, 1);
        refused_entry(&[[1, 1, 0, 0], [pair[0], pair[1], 0, 0]], 22, 1);
        refused_entry(&[[1, 1, 0, 0], [pair[0], pair[1], 3, 0]], 9, 1);
    }
    refused_entry(&[[1, 1, 0, 0], [1, 2, 1, 0]], 23, 1);
}

/// All tests of an entry come before those of the next one.
#[test]
fn before_9_and_22_of_the_next_entry() {
    refused_entry(&[[1, 0, 1, 0], [3, 0, 0, 0]], 23, 0);
    refused_entry(&[[1, 0, 1, 0], [2, 0, 0, 3]], 23, 0);
    refused_entry(&[[1, 0, 1, 0], [0, 0, 0, 0]], 23, 0);
    refused_entry(&[[1, 0, 0, 0], [0, 0, 0, 0], [2, 0, 1, 0]], 22, 1);
    refused_entry(&[[1, 0, 0, 0], [2, 0, 1, 0], [0, 0, 0, 0]], 23, 1);
}

#[test]
fn before_faults_of_later_records() {
    let whole = with(&[[0, 0, 0, 0], [1, 0, 1, 0], [2, 0, 0, 0]]);
    let (faulty, third) = (FIRST + 9, FIRST + 2 * 9);
    for length in third..=whole.len() {
        refused(&whole[..length], 23, faulty);
    }
    for length in faulty..third {
        refused(&whole[..length], 1, faulty);
    }
    for mark in [third, third + 1, third + 9, third + 10] {
        let mut marked = whole.clone();
        marked[mark] = b'x';
        refused(&marked, 23, faulty);
    }
    refused(&[&whole[..], &[0]].concat(), 23, faulty);
}

#[test]
fn before_conditions_and_judging() {
    let one = "entry cell 0..5 mode 0 signal 0 next 1 rank 0\n";
    let faulty = "entry cell 0 mode 0 signal 1 next 1 rank 0\n";
    let start = 9 + 3 * 14 + 2 * 7 + 2 * 3 + 2 * 3 + 7 + 5 + 3 + 2 * 14;
    for (number, old, new) in [
        (10, "pull 40", "pull 251"),
        (11, "pull 34", "pull 33"),
        (12, "safe 40 goal 40", "safe 39 goal 39"),
        (13, "rank 0", "rank 1"),
        (14, "rank 0", "rank 0"),
    ] {
        let text = start_crossing();
        assert!(text.contains(one));
        let changed = text.replace(old, new);
        assert_eq!(judge(&bytes(&changed)).report.number, number);
        let changed = text.replace(one, faulty).replace(old, new);
        refused(&bytes(&changed), 23, start);
        assert_eq!(
            listing(&bytes(&changed)).0,
            format!("refused 23 {start} 0 0\n")
        );
    }
}
