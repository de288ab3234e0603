//! The text form: round trips and bad lines.

mod common;

use common::{bytes, crossing, l_with, L, L_TEXT};
use second::text::{decode, encode, Fault};
use second::Report;

fn fault(text: &str, line: usize, what: &str) {
    assert_eq!(encode(text), Err(Fault::new(line, what)), "{text}");
}

#[test]
fn bytes_to_text_and_back() {
    let text = decode(&L).unwrap();
    let header = "header links 1 turns 0 signals 1 modes 1 arrivals 1 entries 3\n";
    assert_eq!(text, format!("{header}{L_TEXT}"));
    assert_eq!(bytes(&text), L);
    assert_eq!(bytes(&decode(&crossing()).unwrap()), crossing());
    let dark = l_with("green 0", "green none");
    assert!(decode(&dark).unwrap().contains("\nsignal green none\n"));
    assert_eq!(bytes(&decode(&dark).unwrap()), dark);
}

#[test]
fn text_is_only_for_what_can_be_read() {
    assert_eq!(decode(&L[..65]), Err(Report::at(1, 64)));
    // A certificate that fails a condition, or judging, has text.
    assert!(decode(&l_with("rank 1", "rank 0")).is_ok());
}

#[test]
fn header_counts_given_and_taken() {
    let taken = bytes("entry cell 7 mode 3 signal 0 next 5 rank 9\nend");
    assert_eq!(taken[..9], [b'H', b'D', 0, 0, 0, 6, 0, 0, 1]);
    let given = bytes("header turns 2 entries 770\nend");
    assert_eq!(given, [b'H', b'D', 0, 2, 0, 1, 0, 3, 2, b'Z', b'Z']);
    // A header stands where its line stands.
    let late = bytes("signal green 0\nheader links 8\nend");
    assert_eq!(late[..8], [b'S', b'G', 1, b'H', b'D', 8, 0, 1]);
}

#[test]
fn forms_of_lines() {
    let same = |one: &str, other: &str| {
        assert_eq!(
            bytes(&format!("{one}\nend")),
            bytes(&format!("{other}\nend"))
        );
    };
    same("signal green 0 2 7", "signal byte 85");
    same("signal green none", "signal byte 00");
    same("grid 5 8", "grid count 3 cuts 5 8");
    same("grid", "grid count 1 cuts");
    same("  # only this\n\tgrid#1", "grid");
    same(
        "entry cell 3..4 mode 0..1 signal 2 next 1 rank 65535",
        "entry cell 3 mode 0 signal 2 next 1 rank 65535
         entry cell 3 mode 1 signal 2 next 1 rank 65535
         entry cell 4 mode 0 signal 2 next 1 rank 65535
         entry cell 4 mode 1 signal 2 next 1 rank 65535",
    );
    let odd = bytes("grid count 9 cuts 5\narrivals 1-2 770-3\nbytes aB 00\nend\nbytes 5A");
    let due = [
        &b"HD\x00\x00\x00\x01\x01\x00\x00"[..],
        b"GR\x09\x00\x05",
        b"AR\x00\x01\x00\x02\x03\x02\x00\x03",
        b"\xAB\x00ZZZ",
    ];
    assert_eq!(odd, due.concat());
}

#[test]
fn bad_lines() {
    fault("", 1, "expected an `end` line before the end of the text");
    fault(
        "grid\n\n",
        2,
        "expected an `end` line before the end of the text",
    );
    fault(
        "end\n\nlink tail 0 haed 1",
        3,
        "expected `head`, found `haed`",
    );
    fault(
        "link tail 256 head 1",
        1,
        "expected tail (a number from 0 to 255), found `256`",
    );
    fault(
        "link tail 0 head 1 cap 65536",
        1,
        "expected cap (a number from 0 to 65535), found `65536`",
    );
    fault(
        "turn from 0 to 1 share 5",
        1,
        "expected `pull`, found the end of the line",
    );
}

#[test]
fn bad_numbers_and_bytes() {
    fault(
        "turn from +0",
        1,
        "expected from (a number from 0 to 255), found `+0`",
    );
    fault(
        "signal",
        1,
        "expected `green` or `byte`, found the end of the line",
    );
    fault(
        "signal green 8",
        1,
        "expected `none` or a green link (a number from 0 to 7), found `8`",
    );
    fault(
        "signal byte 123",
        1,
        "expected a byte of two hexadecimal digits, found `123`",
    );
    fault("end end", 1, "expected the end of the line, found `end`");
}

#[test]
fn more_bad_lines() {
    fault(
        "arrivals 0-2 3",
        1,
        "expected LOW-HIGH (two numbers from 0 to 65535), found `3`",
    );
    fault(
        "entry cell 4..3 mode 0 signal 0 next 0 rank 0",
        1,
        "expected cell (a number from 0 to 65535, or a range A..B of them with A at most B), found `4..3`",
    );
    fault(
        "entry cell 0 mode 0 signal 0..1 next 0 rank 0",
        1,
        "expected signal (a number from 0 to 255), found `0..1`",
    );
    fault(
        "header turns 1 links 1",
        1,
        "expected `kind H2` or `kind H3`, `links`, `turns`, `signals`, `modes`, `arrivals` and `entries`, \
         each at most once and in this order, found `links`",
    );
    fault(
        "road 1",
        1,
        "expected `header`, `link`, `turn`, `signal`, `mode`, `grid`, `arrivals`, `entry`, `end` or `bytes`, \
         found `road`",
    );
}

#[test]
fn counts_that_do_not_fit() {
    fault(
        "entry cell 0 mode 0 signal 0 next 255 rank 0\nend",
        2,
        "expected modes to be at most 255, found 256 by the lines",
    );
    let cuts = " 1".repeat(255);
    fault(
        &format!("grid{cuts}\nend"),
        1,
        "expected at most 254 cuts, found 255",
    );
}
