//! Faults of MD records in H3 certificates: signals, goal numbers and goals, equal numbers and gaps.

mod common;

use common::goals::{goals_text_with, goals_with, poked, CORRIDOR, GOALS_TEXT};
use common::{bytes, refused};
use second::reading::read;

/// Offsets of some of the H3 certificate's records.
const LK: usize = 9;
const SG: usize = 26;
const MD: [usize; 3] = [29, 35, 41];
const GR: usize = 47;

/// A mode with this goal at each place: its record must be whole, then it is a fault of that record.
fn faulty_modes(place: usize, new: &[u8]) {
    for (mode, offset) in MD.into_iter().enumerate() {
        let faulty = poked(offset + place, new);
        refused(&faulty, 6, offset);
        refused(&faulty[..offset + 6], 6, offset);
        for length in offset + 2..offset + 6 {
            refused(&faulty[..length], 1, offset);
        }
        // A later fault of the same kind does not matter, nor does one of a later record.
        let mut more = faulty;
        for later in &MD[mode + 1..] {
            more[later + place..later + place + new.len()].copy_from_slice(new);
        }
        more[GR + 2] = 0;
        refused(&more, 6, offset);
        // A fault of a signal comes before.
        more[SG + 2] = 2;
        refused(&more, 6, SG);
        more[LK + 3] = 0;
        refused(&more, 4, LK);
    }
}

#[test]
fn missing_signals() {
    for signal in [2, 3, 16, 255] {
        faulty_modes(2, &[signal]);
    }
}

#[test]
fn goal_numbers_out_of_bounds() {
    for number in [8, 9, 16, 128, 255] {
        faulty_modes(3, &[number]);
    }
}

#[test]
fn goals_above_safe() {
    for goal in [11u16, 255, 256, 10_001, 65_535] {
        faulty_modes(4, &goal.to_be_bytes());
    }
    // Safe and not cap: 9 is above safe 8.
    let text = goals_text_with("safe 10", "safe 8");
    assert!(read(&bytes(&text)).is_ok());
    refused(&bytes(&text.replace("goals 5", "goals 9")), 6, MD[0]);
    // The goal may be 0 and the whole cap, and above the LK goal.
    for goal in [0, 3, 4, 10] {
        let bytes = goals_with("goals 8", &format!("goals {goal}"));
        assert!(read(&bytes).is_ok(), "{goal}");
    }
}

/// Each goal is held against the safe of its own link.
#[test]
fn goals_of_each_link() {
    let text = CORRIDOR.replacen("safe 10", "safe 6", 1);
    let text = text.replace("goal 10 start", "goal 6 start");
    let first = 9 + 2 * 14 + 2 * 3;
    let of = |one: &str, other: &str| {
        let goals = text.replace("goals 5 10", one).replace("goals 10 5", other);
        bytes(&goals)
    };
    assert!(read(&of("goals 5 10", "goals 6 5")).is_ok());
    refused(&of("goals 5 10", "goals 7 5"), 6, first + 8);
    refused(&of("goals 7 10", "goals 6 5"), 6, first);
    refused(&of("goals 5 11", "goals 6 5"), 6, first);
    refused(&of("goals 6 10", "goals 6 11"), 6, first + 8);
}

/// Equal numbers have equal goals; the later mode is at fault.
#[test]
fn equal_numbers_with_other_goals() {
    let with = |goals: [[u16; 2]; 3]| {
        let mut text = GOALS_TEXT.to_string();
        for (line, [number, goal]) in [
            "mode signal 0 goal 0 goals 5",
            "mode signal 0 goal 1 goals 8",
            "mode signal 1 goal 1 goals 8",
        ]
        .into_iter()
        .zip(goals)
        {
            let mode = &line[.."mode signal 0".len()];
            text = text.replacen(line, &format!("{mode} goal {number} goals {goal}"), 1);
        }
        bytes(&text)
    };
    refused(&with([[0, 5], [1, 8], [1, 7]]), 6, MD[2]);
    refused(&with([[0, 5], [1, 7], [1, 8]]), 6, MD[2]);
    refused(&with([[0, 5], [1, 8], [0, 8]]), 6, MD[2]);
    refused(&with([[0, 5], [0, 8], [0, 5]]), 6, MD[1]);
    refused(&with([[0, 5], [0, 8], [0, 8]]), 6, MD[1]);
    refused(&with([[0, 5], [0, 5], [0, 8]]), 6, MD[2]);
    // Other numbers may have equal goals; equal numbers need not stand side by side, nor the numbers ascend.
    for good in [
        [[0, 5], [1, 5], [1, 5]],
        [[1, 8], [0, 5], [1, 8]],
        [[2, 8], [1, 5], [0, 5]],
        [[0, 5], [0, 5], [0, 5]],
    ] {
        let refusal = read(&with(good)).err();
        assert!(refusal.is_none_or(|refusal| refusal.number == 24));
    }
    // A difference comes before the gap that stands at the last mode.
    refused(&with([[1, 5], [1, 8], [3, 8]]), 6, MD[1]);
}

/// Goals that differ at one link alone.
#[test]
fn equal_numbers_link_by_link() {
    let second = 9 + 2 * 14 + 2 * 3 + 8;
    for other in ["goals 6 10", "goals 5 9", "goals 10 5"] {
        let text = CORRIDOR.replace("goal 1 goals 10 5", &format!("goal 0 {other}"));
        refused(&bytes(&text), 6, second);
    }
}

/// Two links, a mode of each of these numbers, and a cut of the first link.
fn with_numbers(numbers: &[u8], cut: u16) -> Vec<u8> {
    let mut text = CORRIDOR.split("mode ").next().unwrap().to_string();
    for number in numbers {
        text += &format!("mode signal 0 goal {number} goals 5 5\n");
    }
    text += &format!("grid {cut}\ngrid 5\narrivals 0-1 0-1\n");
    bytes(&(text + "entry cell 0 mode 0 signal 0 next 0 rank 1\nend\n"))
}

/// Where the mode of this place stands, or the grid behind them.
fn mode_at(place: usize) -> usize {
    9 + 2 * 14 + 2 * 3 + 8 * place
}

/// Numbers used are 0 up to some greatest; a gap is a fault of the last mode.
#[test]
fn gaps() {
    for numbers in [
        &[1][..],
        &[7],
        &[1, 1],
        &[0, 2],
        &[2, 0],
        &[1, 2],
        &[0, 1, 3],
        &[3, 1, 0],
        &[0, 0, 2, 2],
        &[7, 6, 5, 4, 3, 2, 1, 1],
        &[0, 1, 2, 3, 4, 5, 7, 7],
        &[0, 0, 0, 0, 0, 0, 0, 7],
    ] {
        let whole = with_numbers(numbers, 5);
        let last = mode_at(numbers.len() - 1);
        refused(&whole, 6, last);
        refused(&whole[..last + 8], 6, last);
        refused(&whole[..last + 7], 1, last);
        // A fault of the grid comes later.
        refused(&with_numbers(numbers, 10), 6, last);
    }
}

#[test]
fn numbers_without_a_gap() {
    for numbers in [
        &[0][..],
        &[0, 0],
        &[1, 0],
        &[2, 0, 1],
        &[1, 1, 0, 2],
        &[7, 6, 5, 4, 3, 2, 1, 0],
        &[0, 1, 2, 3, 4, 5, 6, 7],
    ] {
        assert!(read(&with_numbers(numbers, 5)).is_ok(), "{numbers:?}");
        refused(&with_numbers(numbers, 10), 7, mode_at(numbers.len()));
    }
}
