//! The commands, as a user runs them.

mod common;

use common::program::{ends, ends_with_2, second};
use common::{L, L_TEXT};
use second::cases::{expected, stream};
use std::path::Path;

#[test]
fn list() {
    let whole = "\
links 1 turns 0 signals 1 modes 1 arrivals 1 entries 3
0 0 0 0 0
1 0 0 0 1
2 0 0 0 2
accepted 4 0
";
    ends(&["list", "-"], &L, 0, whole.as_bytes(), "");
    ends(&["list", "-"], &L[..65], 1, b"refused 1 64 0 0\n", "");
    let absent = "no/such/file: cannot be read: ";
    ends_with_2(&["list", "no/such/file"], b"", absent);
}

#[test]
fn encode_and_decode() {
    ends(&["encode", "-"], L_TEXT.as_bytes(), 0, &L, "");
    let header = "header links 1 turns 0 signals 1 modes 1 arrivals 1 entries 3\n";
    let text = format!("{header}{L_TEXT}");
    ends(&["decode", "-"], &L, 0, text.as_bytes(), "");
    ends(&["decode", "-"], &L[..9], 1, b"", "-: refused 1 9 0 0\n");
    ends(
        &["encode", "-"],
        b"grid\nlink\nend",
        1,
        b"",
        "-:2: expected `tail`, found the end of the line\n",
    );
    ends(
        &["encode", "-"],
        b"end\n\xFF",
        1,
        b"",
        "-:2: expected text in UTF-8\n",
    );
}

/// A file that is not there, one that is a folder, and one whose reading fails.
#[test]
fn files_that_cannot_be_read() {
    for command in ["list", "draw", "encode", "decode"] {
        for file in ["no/such/file", env!("CARGO_MANIFEST_DIR"), "/proc/self/mem"] {
            ends_with_2(&[command, file], b"", &format!("{file}: cannot be read: "));
        }
    }
}

#[test]
fn cases() {
    let data = concat!(env!("CARGO_MANIFEST_DIR"), "/tests/data");
    let last = b"80 of 80 calls in 9 cases agreed\n";
    ends(&["cases", data], b"", 0, last, "");
    let sources = concat!(env!("CARGO_MANIFEST_DIR"), "/src");
    let none = format!("{sources}: no case was found\n");
    ends(&["cases", sources], b"", 1, b"", &none);
}

#[test]
fn cases_of_comparisons() {
    let data = concat!(env!("CARGO_MANIFEST_DIR"), "/tests/data/comparisons");
    let last = b"7 of 7 calls in 1 cases agreed\n";
    ends(&["cases", data], b"", 0, last, "");
}

#[test]
fn binary_and_expected() {
    let data = concat!(env!("CARGO_MANIFEST_DIR"), "/tests/data");
    let folder = Path::new(data);
    ends(&["binary", data], b"", 0, &stream(folder).unwrap(), "");
    let text = expected(folder).unwrap();
    ends(&["expected", data], b"", 0, text.as_bytes(), "");
    let sources = concat!(env!("CARGO_MANIFEST_DIR"), "/src");
    let none = format!("{sources}: no case was found\n");
    ends(&["binary", sources], b"", 1, b"", &none);
    ends(&["expected", sources], b"", 1, b"", &none);
}

#[test]
fn binary_and_expected_of_comparisons() {
    let data = concat!(env!("CARGO_MANIFEST_DIR"), "/tests/data/comparisons");
    let folder = Path::new(data);
    ends(&["binary", data], b"", 0, &stream(folder).unwrap(), "");
    let text = expected(folder).unwrap();
    ends(&["expected", data], b"", 0, text.as_bytes(), "");
}

#[test]
fn usage() {
    for words in [
        &[][..],
        &["list"],
        &["judge", "-"],
        &["list", "-", "-"],
        &["draw"],
        &["draw", "-", "0"],
        &["draw", "-", "0", "1", "2"],
        &["decode"],
        &["decode", "-", "-"],
    ] {
        let output = second(words, b"");
        assert_eq!(output.status.code(), Some(2));
        assert!(output.stdout.is_empty());
        assert!(output.stderr.starts_with(b"usage: second list FILE"));
    }
}
