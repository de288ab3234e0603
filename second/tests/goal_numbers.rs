//! Refusal 24: a rank above 0 changes the goal number, or a rank 0 does not pass to the next one.

mod common;

use common::goals::{as_h2, CORRIDOR};
use common::{bytes, refused};
use second::reading::read;
use second::{judge, listing, Report};

/// Modes by signal and goal number: each number from 0 to 2 after each of two signals, in no order.
const MODES: [[u8; 2]; 6] = [[0, 1], [1, 2], [0, 0], [1, 1], [0, 2], [1, 0]];

/// Three cells, every one in each goal; entries by cell, mode, signal, next mode and rank.
fn text_with(modes: &[[u8; 2]], entries: &[[u16; 5]]) -> String {
    let mut text = "\
        header kind H3\n\
        link tail 0 head 1 cap 10 flow 6 safe 10 goal 0 start 1\n\
        signal green 0\n\
        signal green none\n"
        .to_string();
    for [signal, number] in modes {
        text += &format!("mode signal {signal} goal {number} goals 10\n");
    }
    text += "grid 5 8\narrivals 0-2\n";
    for [cell, mode, signal, next, rank] in entries {
        text += &format!("entry cell {cell} mode {mode} signal {signal} next {next} rank {rank}\n");
    }
    text + "end\n"
}

fn with(entries: &[[u16; 5]]) -> Vec<u8> {
    bytes(&text_with(&MODES, entries))
}

/// Offset of the first EN record.
fn first(modes: usize) -> usize {
    9 + 14 + 2 * 3 + 6 * modes + 7 + 6
}

fn refused_entry(entries: &[[u16; 5]], number: u32, entry: usize) {
    refused(&with(entries), number, first(6) + 9 * entry);
}

/// Every mode and next mode with ranks of every kind; the signal is the one that the next mode remembers.
#[test]
fn modes_and_ranks() {
    for (mode, [_, from]) in MODES.into_iter().enumerate() {
        for (next, [signal, to]) in MODES.into_iter().enumerate() {
            for rank in [0, 1, 2, 255, 256, 65_535] {
                let keeps = match rank {
                    0 => to == (from + 1) % 3,
                    _ => to == from,
                };
                let entry = [0, mode as u16, signal.into(), next as u16, rank];
                let due = (!keeps).then_some(Report::at(24, first(6)));
                assert_eq!(read(&with(&[entry])).err(), due, "{entry:?}");
                let h2 = as_h2(&text_with(&MODES, &[entry]));
                assert_eq!(read(&bytes(&h2)).err(), None, "{entry:?}");
            }
        }
    }
}

/// With a single number both ranks keep it; with two, 0 comes after 1.
#[test]
fn one_two_and_eight_numbers() {
    let modes: Vec<[u8; 2]> = (0..8).map(|number| [0, number]).collect();
    for count in 1..=8 {
        let numbers = &modes[..count];
        for mode in 0..count {
            for next in 0..count {
                for rank in [0, 1] {
                    let entry = [0, mode as u16, 0, next as u16, rank];
                    let keeps = match rank {
                        0 => next == (mode + 1) % count,
                        _ => next == mode,
                    };
                    let due = (!keeps).then_some(Report::at(24, first(count)));
                    let bytes = bytes(&text_with(numbers, &[entry]));
                    assert_eq!(read(&bytes).err(), due, "{count} {entry:?}");
                }
            }
        }
    }
}

/// The greatest number used by any mode counts, not those of the entries.
#[test]
fn the_greatest_of_all_modes() {
    let modes = [[0, 0], [0, 1], [0, 2]];
    let both = [[0, 0, 0, 1, 0], [0, 1, 0, 0, 0]];
    refused(&bytes(&text_with(&modes, &both)), 24, first(3) + 9);
    assert!(read(&bytes(&text_with(&modes[..2], &both))).is_ok());
}

#[test]
fn first_middle_and_last_entry() {
    // Mode 2 has number 0, mode 0 number 1, mode 4 number 2; all come after signal 0.
    let good = [[0, 2, 0, 0, 0], [1, 0, 0, 0, 1], [2, 4, 0, 2, 0]];
    assert!(read(&with(&good)).is_ok());
    for number in 0..3 {
        for (rank, next) in [(0, 0), (0, 2), (0, 4), (1, 0), (1, 2), (1, 4)] {
            let mut entries = good;
            entries[number][3] = next;
            entries[number][4] = rank;
            let from = [0, 1, 2][number];
            let to = MODES[usize::from(next)][1];
            let due = if rank == 0 { (from + 1) % 3 } else { from };
            match to == due {
                true => assert!(read(&with(&entries)).is_ok()),
                false => refused_entry(&entries, 24, number),
            }
        }
    }
    // The first faulty entry decides.
    refused_entry(&[[0, 2, 0, 0, 1], [1, 2, 0, 0, 1]], 24, 0);
    refused_entry(&[[0, 2, 0, 0, 0], [1, 2, 0, 0, 1], [2, 2, 0, 0, 1]], 24, 1);
}

/// Entries of one mode that keep the number and that do not: each stands for itself.
#[test]
fn the_entry_alone() {
    refused_entry(&[[0, 2, 0, 2, 1], [1, 2, 0, 2, 0]], 24, 1);
    refused_entry(&[[0, 2, 0, 0, 1], [1, 2, 0, 0, 0]], 24, 0);
}

#[test]
fn after_9_22_and_23() {
    // A missing name in the same entry; with a missing next mode there is no number to compare.
    for faulty in [
        [3, 2, 0, 0, 1],
        [0, 6, 0, 0, 1],
        [0, 2, 2, 0, 1],
        [0, 2, 0, 6, 1],
        [0, 255, 255, 255, 0],
    ] {
        refused_entry(&[faulty], 9, 0);
    }
    // A pair that is not above the one before, in the same entry.
    for [cell, mode] in [[1, 2], [1, 1], [0, 5]] {
        refused_entry(&[[1, 2, 0, 0, 0], [cell, mode, 0, 2, 0]], 22, 1);
        refused_entry(&[[1, 2, 0, 0, 0], [cell, mode, 1, 2, 0]], 22, 1);
    }
    // Another signal than the next mode remembers, in the same entry.
    refused_entry(&[[0, 2, 1, 0, 1]], 23, 0);
    refused_entry(&[[0, 2, 1, 2, 0]], 23, 0);
    refused_entry(&[[0, 2, 0, 3, 0]], 23, 0);
    refused_entry(&[[0, 2, 1, 3, 1]], 24, 0);
}

/// All tests of an entry come before those of the next one.
#[test]
fn before_9_22_and_23_of_the_next_entry() {
    let faulty = [1, 2, 0, 0, 1];
    for next in [
        [3, 2, 0, 0, 0],
        [2, 2, 0, 6, 0],
        [0, 2, 0, 0, 0],
        [1, 2, 0, 0, 0],
        [2, 2, 1, 0, 0],
    ] {
        refused_entry(&[faulty, next], 24, 0);
    }
    let good = [0, 2, 0, 0, 0];
    refused_entry(&[good, [0, 2, 0, 0, 0], faulty], 22, 1);
    refused_entry(&[good, [1, 2, 1, 0, 0], [2, 2, 0, 0, 1]], 23, 1);
    refused_entry(&[good, [1, 6, 0, 0, 0], [2, 2, 0, 0, 1]], 9, 1);
}

#[test]
fn before_faults_of_later_records() {
    let whole = with(&[[0, 2, 0, 0, 0], [1, 2, 0, 2, 0], [2, 2, 0, 0, 0]]);
    let (faulty, third) = (first(6) + 9, first(6) + 2 * 9);
    for length in third..=whole.len() {
        refused(&whole[..length], 24, faulty);
    }
    for length in faulty..third {
        refused(&whole[..length], 1, faulty);
    }
    for mark in [third, third + 1, third + 9, third + 10] {
        let mut marked = whole.clone();
        marked[mark] = b'x';
        refused(&marked, 24, faulty);
    }
    refused(&[&whole[..], &[0]].concat(), 24, faulty);
}

/// A certificate that is refused with this number otherwise has a last entry at fault.
fn refused_first(text: &str, number: u32, last_entry: usize) {
    assert_eq!(judge(&bytes(text)).report.number, number);
    let last = "entry cell 3 mode 1 signal 1 next 1 rank 1\n";
    assert!(text.contains(last));
    for faulty in ["signal 1 next 1 rank 0", "signal 0 next 0 rank 1"] {
        let faulty = format!("entry cell 3 mode 1 {faulty}\n");
        let changed = bytes(&text.replace(last, &faulty));
        refused(&changed, 24, last_entry);
        assert_eq!(
            listing(&changed).0,
            format!("refused 24 {last_entry} 0 0\n")
        );
    }
}

#[test]
fn before_judging() {
    assert!(judge(&bytes(CORRIDOR)).is_accepted());
    let last = 9 + 2 * 14 + 2 * 3 + 2 * 8 + 2 * 5 + 10 + 7 * 9;
    for (number, old, new) in [
        (12, "safe 10 goal 10 start", "safe 5 goal 5 start"),
        (13, "goals 5 10", "goals 4 10"),
        (14, "entry cell 2 mode 1 signal 0 next 0 rank 0\n", ""),
        (15, "arrivals 0-1 0-1", "arrivals 0-2 0-1"),
    ] {
        assert!(CORRIDOR.contains(old));
        let text = CORRIDOR.replace(old, new);
        // A goal above the lower safe would be a fault of its own.
        let text = match number {
            12 => text.replace("goals 10 5", "goals 5 5"),
            _ => text,
        };
        refused_first(&text, number, if number == 14 { last - 9 } else { last });
    }
}

/// A third link that both turn into, so that 10 and 11 can fail.
#[test]
fn before_conditions() {
    let last = 9 + 3 * 14 + 2 * 7 + 2 * 3 + 2 * 10 + 2 * 5 + 3 + 14 + 7 * 9;
    for (number, pulls) in [(10, [34, 251]), (11, [23, 40])] {
        let third = format!(
            "link tail 1 head 2 cap 40 flow 10 safe 40 goal 40 start 10\n\
             turn from 0 to 2 share 50 pull {}\n\
             turn from 1 to 2 share 40 pull {}\n\
             signal green 0\n",
            pulls[0], pulls[1]
        );
        let text = CORRIDOR.replace("signal green 0\n", &third);
        let text = text.replace("goals 5 10", "goals 5 10 40");
        let text = text.replace("goals 10 5", "goals 10 5 40");
        let text = text.replace("arrivals 0-1 0-1", "grid\narrivals 0-1 0-1 0-0");
        refused_first(&text, number, last);
    }
}
