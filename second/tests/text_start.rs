//! The text form of H2 certificates: kind, start flows and modes.

mod common;

use common::{as_hd, bytes, start, start_crossing, start_with, START_TEXT};
use second::reading::read;
use second::text::{decode, encode, Fault};
use second::Report;

fn fault(text: &str, line: usize, what: &str) {
    assert_eq!(encode(text), Err(Fault::new(line, what)), "{text}");
}

#[test]
fn bytes_to_text_and_back() {
    let text = decode(&start()).unwrap();
    let header = "header kind H2 links 1 turns 0 signals 2 modes 3 arrivals 1 entries 6\n";
    assert_eq!(text, START_TEXT.replace("header kind H2\n", header));
    assert_eq!(bytes(&text), start());
    let crossing = bytes(&start_crossing());
    let text = decode(&crossing).unwrap();
    assert!(text.starts_with("header kind H2 links 3 "));
    assert_eq!(text.matches(" goal 40 start 5\n").count(), 3);
    assert!(text.contains("\nsignal green 1 2\nmode signal 1\nmode signal 0\ngrid 10 25\n"));
    assert_eq!(bytes(&text), crossing);
}

#[test]
fn hd_has_none_of_it() {
    let text = decode(&bytes(&as_hd(START_TEXT))).unwrap();
    assert!(text.starts_with("header links 1 turns 0 signals 2 modes 3 "));
    for words in ["kind", "start", "mode signal"] {
        assert!(!text.contains(words), "{words}");
    }
}

#[test]
fn text_is_only_for_what_can_be_read() {
    let other = start_with("next 2 rank 3", "next 1 rank 3");
    assert_eq!(decode(&other), Err(Report::at(23, 87)));
    let missing = start_with("mode signal 1", "mode signal 2");
    assert_eq!(decode(&missing), Err(Report::at(6, 32)));
    let flow = start_with("start 2", "start 7");
    assert_eq!(decode(&flow), Err(Report::at(4, 9)));
    // Refused by judging only.
    let unlisted = start_with("start 2", "start 6");
    assert_eq!(bytes(&decode(&unlisted).unwrap()), unlisted);
}

/// Each line by its bytes; any of them may stand in a certificate of the other kind.
#[test]
fn lines() {
    assert_eq!(bytes("header kind H2\nend"), *b"H2\0\0\0\x01\0\0\0ZZ");
    let given = bytes("header kind H2 turns 2 entries 770\nend");
    assert_eq!(given, *b"H2\0\x02\0\x01\0\x03\x02ZZ");
    let link = "link tail 1 head 2 cap 3 flow 4 safe 5 goal 6";
    let hd = bytes(&format!("{link} start 770\nend"));
    let due = b"HD\x01\0\0\x01\0\0\0LK\x01\x02\0\x03\0\x04\0\x05\0\x06\x03\x02ZZ";
    assert_eq!(hd, *due);
    let h2 = bytes(&format!("header kind H2\n{link}\nend"));
    let due = b"H2\x01\0\0\x01\0\0\0LK\x01\x02\0\x03\0\x04\0\x05\0\x06ZZ";
    assert_eq!(h2, *due);
    let modes = bytes("mode signal 255\nend\nmode signal 0");
    assert_eq!(modes, *b"HD\0\0\0\x02\0\0\0MD\xFFZZMD\0");
    // With start flow or without, link by link.
    let mixed = bytes(&format!("{link} start 1\n{link}\n{link} start 65535\nend"));
    assert_eq!(mixed.len(), 9 + 14 + 12 + 14 + 2);
}

/// Modes by the `mode` lines, and by the entries only where there is none.
#[test]
fn count_of_modes() {
    let entry = "entry cell 0 mode 3 signal 0 next 5 rank 0\n";
    let modes = |text: &str| bytes(&format!("{text}end\n"))[5];
    for header in ["", "header\n", "header kind H2\n"] {
        assert_eq!(modes(header), 1);
        assert_eq!(modes(&format!("{header}{entry}")), 6);
        assert_eq!(modes(&format!("{header}mode signal 0\n{entry}")), 1);
        let nine = "mode signal 0\n".repeat(9);
        assert_eq!(modes(&format!("{header}{nine}{entry}")), 9);
    }
    let given = "header kind H2 modes 4\nmode signal 0\n";
    assert_eq!(modes(given), 4);
    let many = "mode signal 0\n".repeat(256);
    fault(
        &format!("{many}end\n"),
        257,
        "expected modes to be at most 255, found 256 by the lines",
    );
}

#[test]
fn bad_headers() {
    fault(
        "header kind",
        1,
        "expected `H2` or `H3`, found the end of the line",
    );
    for kind in ["HD", "H4", "h2", "2"] {
        fault(
            &format!("header kind {kind}\nend"),
            1,
            &format!("expected `H2` or `H3`, found `{kind}`"),
        );
    }
    let expected =
        "expected `kind H2` or `kind H3`, `links`, `turns`, `signals`, `modes`, `arrivals` and `entries`, \
         each at most once and in this order, found";
    fault("header links 1 kind H2", 1, &format!("{expected} `kind`"));
    fault("header kind H2 kind H2", 1, &format!("{expected} `kind`"));
}

#[test]
fn bad_links_and_modes() {
    let link = "link tail 0 head 1 cap 1 flow 1 safe 1 goal 1";
    let most = "start (a number from 0 to 65535)";
    fault(
        &format!("{link} start"),
        1,
        &format!("expected {most}, found the end of the line"),
    );
    fault(
        &format!("{link} start 65536"),
        1,
        &format!("expected {most}, found `65536`"),
    );
    fault(
        &format!("{link} begin 1"),
        1,
        "expected the end of the line, found `begin`",
    );
    fault(
        &format!("{link} start 1 start 1"),
        1,
        "expected the end of the line, found `start`",
    );
    fault("mode", 1, "expected `signal`, found the end of the line");
    fault("mode 1", 1, "expected `signal`, found `1`");
    fault(
        "mode signal 256",
        1,
        "expected signal (a number from 0 to 255), found `256`",
    );
    fault(
        "mode signal 1 2",
        1,
        "expected the end of the line, found `2`",
    );
}

/// A certificate of each number of links, with and without turns, goes there and back.
#[test]
fn round_trips() {
    for links in 1..=8 {
        let mut text = "header kind H2\n".to_string();
        for link in 0..links {
            let start = 1 + link * 1_111;
            text += &format!(
                "link tail 0 head 1 cap 9999 flow 9999 safe 9999 goal 9999 start {start}\n"
            );
        }
        text += "signal byte 01\nsignal green none\n";
        for mode in 0..links {
            text += &format!("mode signal {}\n", mode % 2);
        }
        text += &"grid 256\n".repeat(links);
        text += &format!("arrivals{}\n", " 0-1".repeat(links));
        text += &format!(
            "entry cell 0..1 mode 0..{} signal 0 next 0 rank 0\nend\n",
            links - 1
        );
        let bytes = bytes(&text);
        let certificate = read(&bytes).unwrap();
        assert_eq!(certificate.memory.len(), links);
        let last = certificate.links.last().and_then(|link| link.start);
        assert_eq!(last, Some(1 + (links as u16 - 1) * 1_111));
        assert_eq!(common::bytes(&decode(&bytes).unwrap()), bytes);
    }
}
