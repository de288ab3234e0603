//! What stands before the first EN of two certificates that are compared: every byte counts but the entry count.

mod common;

use common::goals::{goals, goals_with};
use common::offices::{says, with_ranks};
use common::{bytes, crossing, l_with, start, start_with, L, L_TEXT};
use second::certificate::Kind;
use second::comparing::{compare_tables, Table};
use second::Comparison::{Equal, First, Neither, Refused, Second};
use std::cmp::Ordering;

/// What stands before the first EN, its count of entries included.
fn front(bytes: &[u8]) -> &[u8] {
    let count = usize::from(u16::from_be_bytes([bytes[7], bytes[8]]));
    &bytes[..bytes.len() - 2 - 9 * count]
}

/// Certificates of each kind whose fronts have records of every sort.
fn fronts() -> [Vec<u8>; 5] {
    let office = |kind| with_ranks(kind, &[(1, 0, 4), (2, 1, 7)]);
    [
        crossing(),
        L.to_vec(),
        office(Kind::Hd),
        office(Kind::H2),
        goals(),
    ]
}

/// Every byte before the first EN in every other value: neither is better where both are accepted, and else the
/// refusal is given, in whichever place it stands.
#[test]
fn every_byte_before_the_first_entry_counts() {
    for own in fronts() {
        let table = Table::of(&own);
        let (mut accepted, mut places) = (0, 0);
        for at in 0..front(&own).len() {
            let mut other = own.clone();
            let before = accepted;
            for value in (0..=255).filter(|&value| value != own[at]) {
                other[at] = value;
                let changed = Table::of(&other);
                let due = match &changed {
                    Ok(_) => Neither,
                    Err(refusal) => Refused(*refusal),
                };
                accepted += usize::from(changed.is_ok());
                assert_eq!(compare_tables(&table, &changed), due);
                assert_eq!(compare_tables(&changed, &table), due);
            }
            places += usize::from(accepted > before);
            // The entry count does not stand alone: it is that of the records.
            assert!(!(7..9).contains(&at) || accepted == before);
        }
        assert!(accepted > 500 && places >= 8, "{accepted} {places}");
    }
}

/// A certificate is no better for lower ranks and more pairs where one byte before the first EN differs.
#[test]
fn other_fronts_are_not_compared_further() {
    let worse = l_with("entry cell 2 mode 0 signal 0 next 0 rank 2\n", "");
    says(&L, &worse, First);
    for (old, new) in [
        ("arrivals 0-2", "arrivals 0-1"),
        ("arrivals 0-2", "arrivals 1-2"),
        ("flow 6", "flow 7"),
        ("tail 0", "tail 9"),
        ("head 1", "head 2"),
        ("goal 5", "goal 6"),
        ("grid 5 8", "grid 5 7"),
        ("signal green 0\n", "signal green 0\nsignal green none\n"),
        ("arrivals 0-2\n", "arrivals 0-2\narrivals 0-2\n"),
        ("link ", "header modes 2\nlink "),
    ] {
        let other = l_with(old, new);
        says(&L, &other, Neither);
        says(&other, &worse, Neither);
    }
}

/// Start flows, memories of used and unused modes, goals of modes, and goals of links that are not used.
#[test]
fn modes_and_start_flows_count() {
    let last = "mode signal 0\ngrid";
    let unused =
        |signal: u8| start_with(last, &format!("mode signal 0\nmode signal {signal}\ngrid"));
    says(&unused(0), &unused(1), Neither);
    says(&start(), &unused(0), Neither);
    says(&start(), &start_with("start 2", "start 3"), Neither);
    let own = goals();
    for (old, new) in [
        ("goal 3 start 2", "goal 4 start 2"),
        ("goal 0 goals 5", "goal 0 goals 6"),
        ("goal 1 goals 8", "goal 1 goals 9"),
    ] {
        says(&own, &goals_with(old, new), Neither);
    }
}

/// The same rows in each kind: the marks differ, and all that follows from them.
#[test]
fn kinds_are_not_compared() {
    for first in Kind::ALL {
        for second in Kind::ALL {
            let due = if first == second { Equal } else { Neither };
            let of = |kind| with_ranks(kind, &[(1, 0, 4), (2, 1, 7)]);
            says(&of(first), &of(second), due);
            let fewer = with_ranks(second, &[(1, 0, 5)]);
            let due = if first == second { First } else { Neither };
            says(&of(first), &fewer, due);
        }
    }
}

/// The bytes 45 4E in an LK record: a link from junction 69 to 78. The front does not end there.
#[test]
fn the_mark_of_an_entry_in_a_link() {
    let with = |old: &str, new: &str| {
        let text = L_TEXT.replace("tail 0 head 1", "tail 69 head 78");
        bytes(&text.replace(old, new))
    };
    let own = with("", "");
    assert_eq!(own[11..13], *b"EN");
    says(&own, &own, Equal);
    says(&own, &with("0 rank 2", "0 rank 3"), First);
    says(&own, &with("arrivals 0-2", "arrivals 0-1"), Neither);
    says(&own, &with("flow 6", "flow 7"), Neither);
    says(&own, &L, Neither);
}

/// Three links of eight intervals each that empty in a step, all cells goal, and eight modes: these pairs are listed.
fn many(pairs: impl Iterator<Item = usize>) -> Vec<u8> {
    let mut text = "header modes 8\n".to_string();
    text += &"link tail 0 head 1 cap 16 flow 16 safe 16 goal 16\n".repeat(3);
    text += "signal green 0 1 2\n";
    text += &"grid 2 4 6 8 10 12 14\n".repeat(3);
    text += "arrivals 0-0 0-0 0-0\n";
    for pair in pairs {
        let (cell, mode) = (pair / 8, pair % 8);
        text += &format!("entry cell {cell} mode {mode} signal 0 next 0 rank 0\n");
    }
    bytes(&(text + "end\n"))
}

/// Both bytes of the entry count may differ, each alone too.
#[test]
fn the_entry_count_is_left_aside() {
    let counts = [1, 2, 255, 256, 257, 512, 4_095, 4_096];
    let tables = counts.map(|count| Table::of(&many(0..count)));
    for (own, first) in counts.iter().zip(&tables) {
        for (other, second) in counts.iter().zip(&tables) {
            let due = match own.cmp(other) {
                Ordering::Less => Second,
                Ordering::Equal => Equal,
                Ordering::Greater => First,
            };
            assert_eq!(compare_tables(first, second), due);
        }
    }
    // As many of each, but not the same ones.
    says(
        &many([0, 1].into_iter()),
        &many([0, 2].into_iter()),
        Neither,
    );
    let late = (0..1).chain(3_000..3_255);
    says(&many(0..256), &many(late), Neither);
}
