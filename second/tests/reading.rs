//! Refusals 1 to 8 of HD certificates with their order and places, and damaged inputs.

mod common;

use common::{bytes, crossing, start, CROSSING, L};
use second::reading::read;
use second::{judge, Report};

/// Offsets of L's records.
const STARTS: [usize; 9] = [0, 9, 21, 24, 31, 37, 46, 55, 64];

fn l_poked(offset: usize, new: &[u8]) -> Vec<u8> {
    let mut l = L.to_vec();
    l[offset..offset + new.len()].copy_from_slice(new);
    l
}

fn refused(bytes: &[u8], number: u32, a: usize) {
    assert_eq!(judge(bytes).report, Report::at(number, a), "{bytes:02X?}");
}

#[test]
fn every_prefix_of_l_is_short() {
    for length in 0..L.len() {
        let start = STARTS.iter().rfind(|&&start| start <= length);
        refused(&L[..length], 1, *start.unwrap());
    }
}

#[test]
fn wrong_mark_whichever_byte() {
    for start in STARTS {
        for byte in 0..2 {
            refused(&l_poked(start + byte, b"x"), 2, start);
        }
    }
}

#[test]
fn wrong_mark_comes_before_a_short_record() {
    refused(b"H", 1, 0);
    refused(b"x", 1, 0);
    refused(b"HX", 2, 0);
    refused(b"HD", 1, 0);
    refused(b"H2", 1, 0);
    refused(b"H4", 2, 0);
    refused(b"H3", 1, 0);
    refused(&l_poked(9, b"X")[..11], 2, 9);
    refused(&l_poked(9, b"X")[..10], 1, 9);
}

#[test]
fn header_fields() {
    for (offset, values) in [
        (2, &[0, 9][..]),
        (3, &[33]),
        (4, &[0, 17]),
        (5, &[0, 9]),
        (6, &[0, 9]),
    ] {
        for &value in values {
            refused(&l_poked(offset, &[value]), 3, 0);
        }
    }
    refused(&l_poked(7, &[0x00, 0x00]), 3, 0);
    refused(&l_poked(7, &[0x10, 0x01]), 3, 0);
    refused(&l_poked(7, &[0x10, 0x00]), 2, 64);
}

#[test]
fn link_fields() {
    for (offset, new) in [
        (12, &[0][..]),
        (11, &[1]),
        (13, &[0, 0]),
        (13, &[0x27, 0x11]),
        (15, &[0, 0]),
        (15, &[0, 11]),
        (17, &[0, 11]),
        (19, &[0, 11]),
    ] {
        refused(&l_poked(offset, new), 4, 9);
    }
}

/// L under the mark of the other kind: what follows its link stands for the start flow.
#[test]
fn l_opened_as_h2() {
    refused(&l_poked(1, b"2"), 4, 9);
    refused(&l_poked(1, b"2")[..23], 4, 9);
    refused(&l_poked(1, b"2")[..22], 1, 9);
}

/// The crossing's second turn starts at 9 + 3 × 12 + 7.
const TURN: usize = 52;

#[test]
fn turn_fields() {
    let line = "turn from 0 to 2 share 40 pull 40";
    for other in [
        "turn from 3 to 2 share 40 pull 40",
        "turn from 0 to 3 share 40 pull 40",
        "turn from 1 to 2 share 40 pull 40",
        "turn from 0 to 0 share 40 pull 40",
        "turn from 0 to 2 share 0 pull 40",
        "turn from 0 to 2 share 51 pull 40",
        "turn from 0 to 2 share 101 pull 40",
        "turn from 0 to 2 share 40 pull 0",
        "turn from 0 to 2 share 40 pull 10001",
        "turn from 0 to 1 share 40 pull 40",
    ] {
        assert!(CROSSING.contains(line));
        refused(&bytes(&CROSSING.replace(line, other)), 5, TURN);
    }
    let lines = "turn from 0 to 1 share 50 pull 34\nturn from 0 to 2 share 40 pull 40\n";
    let swapped = "turn from 0 to 2 share 40 pull 40\nturn from 0 to 1 share 50 pull 34\n";
    refused(&bytes(&CROSSING.replace(lines, swapped)), 5, TURN);
    // Exactly 100 in total can be read.
    let whole = bytes(&CROSSING.replace(line, "turn from 0 to 2 share 50 pull 40"));
    assert!(read(&whole).is_ok());
}

#[test]
fn signal_of_an_absent_link() {
    refused(&l_poked(23, &[3]), 6, 21);
    refused(&l_poked(23, &[0x80]), 6, 21);
    assert!(read(&l_poked(23, &[0])).is_ok());
}

#[test]
fn grid_count_before_cuts() {
    refused(&l_poked(26, &[0]), 7, 24);
    refused(&l_poked(26, &[16]), 7, 24);
    refused(&l_poked(26, &[16])[..27], 7, 24);
    refused(&l_poked(26, &[15])[..54], 1, 24);
    refused(&L[..26], 1, 24);
    for cuts in [[0, 0, 0, 8], [0, 5, 0, 5], [0, 8, 0, 5], [0, 5, 0, 10]] {
        refused(&l_poked(27, &cuts), 7, 24);
        refused(&l_poked(27, &cuts)[..30], 1, 24);
    }
}

#[test]
fn grid_product_before_cuts() {
    let four = |counts: [&str; 4]| {
        let link = "link tail 0 head 1 cap 100 flow 1 safe 100 goal 100\n".repeat(4);
        let grids = counts.map(|cuts| format!("grid {cuts}\n")).concat();
        let header = "header arrivals 1 entries 1\n";
        bytes(&format!("{header}{link}signal green none\n{grids}end\n"))
    };
    let fourteen = "1 2 3 4 5 6 7 8 9 10 11 12 13 14";
    let seven = "1 2 3 4 5 6 7";
    let wide = four([fourteen, fourteen, fourteen, "1"]);
    // 15 × 15 × 15 × 2 is above 4,096; the fourth GR stands after three of 31 bytes.
    let start = 9 + 4 * 12 + 3 + 3 * 31;
    refused(&wide, 7, start);
    refused(&wide[..start + 3], 7, start);
    refused(&wide[..start + 2], 1, start);
    // 8 × 8 × 8 × 8 is 4,096: reading goes on to the arrival box, which is not there.
    let even = four([seven; 4]);
    refused(&even, 2, even.len() - 2);
}

#[test]
fn arrival_fields() {
    refused(&l_poked(33, &[0, 3]), 8, 31);
    refused(&l_poked(35, &[0x27, 0x11]), 8, 31);
    assert!(read(&l_poked(35, &[0x27, 0x10])).is_ok());
}

#[test]
fn byte_after_the_end_comes_before_conditions() {
    let text = CROSSING.replace("pull 34", "pull 1");
    assert_eq!(judge(&bytes(&text)).report, Report::at(11, 0));
    let long = bytes(&format!("{text}bytes 00\n"));
    refused(&long, 2, long.len() - 1);
}

#[test]
fn damage_never_panics() {
    for whole in [L.to_vec(), crossing(), start()] {
        for length in 0..=whole.len() {
            judge(&whole[..length]);
        }
        for offset in 0..whole.len() {
            let mut damaged = whole.clone();
            for change in 1..=255 {
                damaged[offset] = whole[offset] ^ change;
                judge(&damaged);
                judge(&damaged[..=offset]);
            }
        }
    }
}
