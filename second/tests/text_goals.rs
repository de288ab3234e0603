//! The text form of H3 certificates: kind and goals of modes, also as changes of stored cases.

mod common;

use common::bytes;
use common::folder::{folder, malformed};
use common::goals::{as_h2, goals, goals_text_with, goals_with, CORRIDOR, GOALS_TEXT};
use second::cases::stream;
use second::reading::read;
use second::text::{decode, encode, Fault};
use second::Report;

fn fault(text: &str, line: usize, what: &str) {
    assert_eq!(encode(text), Err(Fault::new(line, what)), "{text}");
}

#[test]
fn bytes_to_text_and_back() {
    let text = decode(&goals()).unwrap();
    let header = "header kind H3 links 1 turns 0 signals 2 modes 3 arrivals 1 entries 9\n";
    assert_eq!(text, GOALS_TEXT.replace("header kind H3\n", header));
    assert_eq!(bytes(&text), goals());
    let corridor = bytes(CORRIDOR);
    let text = decode(&corridor).unwrap();
    assert!(text.contains("\nmode signal 0 goal 0 goals 5 10\nmode signal 1 goal 1 goals 10 5\n"));
    assert_eq!(bytes(&text), corridor);
    let h2 = decode(&bytes(&as_h2(GOALS_TEXT))).unwrap();
    assert!(h2.starts_with("header kind H2 ") && !h2.contains("goals"));
    assert!(h2.contains("\nmode signal 0\nmode signal 0\nmode signal 1\n"));
}

#[test]
fn text_is_only_for_what_can_be_read() {
    let early = goals_with("next 0 rank 2", "next 0 rank 0");
    assert_eq!(decode(&early), Err(Report::at(24, 114)));
    let gap = goals_with("goal 1", "goal 2");
    assert_eq!(decode(&gap), Err(Report::at(6, 41)));
    // Refused by judging only.
    let outside = goals_with("goals 5", "goals 4");
    assert_eq!(bytes(&decode(&outside).unwrap()), outside);
}

/// Each line by its bytes; any of them may stand in a certificate of another kind.
#[test]
fn lines() {
    assert_eq!(bytes("header kind H3\nend"), *b"H3\0\0\0\x01\0\0\0ZZ");
    for (line, due) in [
        ("mode signal 1 goal 2 goals", &b"MD\x01\x02"[..]),
        ("mode signal 1 goal 2 goals 770", b"MD\x01\x02\x03\x02"),
        (
            "mode signal 255 goal 255 goals 65535 0 1",
            b"MD\xFF\xFF\xFF\xFF\0\0\0\x01",
        ),
        ("mode signal 1", b"MD\x01"),
    ] {
        for (header, mark) in [
            ("", b"HD"),
            ("header kind H2\n", b"H2"),
            ("header kind H3\n", b"H3"),
        ] {
            let bytes = bytes(&format!("{header}{line}\nend"));
            let whole = [&mark[..], b"\0\0\0\x01\0\0\0", due, b"ZZ"].concat();
            assert_eq!(bytes, whole, "{header}{line}");
        }
    }
    let many = " 1".repeat(300);
    let bytes = bytes(&format!("mode signal 0 goal 0 goals{many}\nend"));
    assert_eq!(bytes.len(), 9 + 4 + 600 + 2);
}

#[test]
fn bad_lines() {
    let number = "goal (a number from 0 to 255)";
    fault(
        "mode signal 0 goal",
        1,
        &format!("expected {number}, found the end of the line"),
    );
    fault(
        "mode signal 0 goal 256",
        1,
        &format!("expected {number}, found `256`"),
    );
    fault(
        "mode signal 0 goal 0",
        1,
        "expected `goals`, found the end of the line",
    );
    fault("mode signal 0 goal 0 5", 1, "expected `goals`, found `5`");
    fault(
        "mode signal 0 goals 5",
        1,
        "expected the end of the line, found `goals`",
    );
    fault("mode goal 0 goals 5", 1, "expected `signal`, found `goal`");
}

#[test]
fn bad_goals() {
    let amount = "goals (a number from 0 to 65535)";
    fault(
        "mode signal 0 goal 0 goals 65536",
        1,
        &format!("expected {amount}, found `65536`"),
    );
    fault(
        "mode signal 0 goal 0 goals 5 goal",
        1,
        &format!("expected {amount}, found `goal`"),
    );
    fault(
        "mode signal 0 goal 0 goals none",
        1,
        &format!("expected {amount}, found `none`"),
    );
}

/// A certificate of each number of links and modes goes there and back.
#[test]
fn round_trips() {
    for count in 1..=8u16 {
        let links: usize = count.into();
        let mut text = "header kind H3\n".to_string();
        for link in 0..count {
            let safe = 9_999 - link;
            text +=
                &format!("link tail 0 head 1 cap 9999 flow 9 safe {safe} goal {link} start 1\n");
        }
        text += "signal byte 01\n";
        for mode in 0..count {
            let amounts = (0..count).map(|link| format!(" {}", (mode + 1) * 1_000 + link));
            let amounts: String = amounts.collect();
            text += &format!("mode signal 0 goal {} goals{amounts}\n", count - 1 - mode);
        }
        text += &"grid 256\n".repeat(links);
        text += &format!("arrivals{}\n", " 0-1".repeat(links));
        text += "entry cell 0 mode 0 signal 0 next 0 rank 1\nend\n";
        let bytes = bytes(&text);
        let certificate = read(&bytes).unwrap();
        let last = certificate.goals.last().unwrap();
        assert_eq!((last.number, last.amounts[0]), (0, count * 1_000));
        assert_eq!(common::bytes(&decode(&bytes).unwrap()), bytes);
    }
}

/// Changes of the H3 certificate, and those of its text that do the same.
const CHANGES: [[&str; 3]; 9] = [
    ["set mode 0 goals 4", "goals 5", "goals 4"],
    ["set mode 0 goal 2", "goal 0 goals 5", "goal 2 goals 5"],
    [
        "set mode 0 goal 2 goals 4 3",
        "goal 0 goals 5",
        "goal 2 goals 4 3",
    ],
    [
        "set mode 2 signal 0 goals",
        "signal 1 goal 1 goals 8",
        "signal 0 goal 1 goals",
    ],
    [
        "set mode 2 goal 0 signal 0",
        "signal 1 goal 1 goals 8",
        "signal 0 goal 0 goals 8",
    ],
    [
        "replace mode 0 by mode signal 1",
        "mode signal 0 goal 0 goals 5",
        "mode signal 1",
    ],
    ["remove mode 2", "mode signal 1 goal 1 goals 8\n", ""],
    ["set header kind H2", "kind H3", "kind H2"],
    [
        "insert mode 0 mode signal 0",
        "mode signal 0 goal 0",
        "mode signal 0\nmode signal 0 goal 0",
    ],
];

/// A change of the H3 certificate gives what the same change of its text gives.
#[test]
fn changes() {
    for (number, [change, old, new]) in CHANGES.into_iter().enumerate() {
        let bytes = bytes(&goals_text_with(old, new));
        let cases = format!("paper g\n{GOALS_TEXT}paper f from g\n{change}\ncase x\nload f\n");
        let due = "case x\nload 1 0 0 0 mode 0 length 0\n";
        let folder = folder(&format!("goals-{number}"), &cases, due);
        let length = (bytes.len() as u32).to_be_bytes();
        let streamed = [b"CL", &length[..], &bytes, b"E"].concat();
        assert_eq!(stream(&folder).unwrap(), streamed, "{change}");
    }
}

/// `set` changes a goal that is there; `replace` gives one to a mode that has none.
#[test]
fn modes_without_goals() {
    let mode = "paper f\nmode signal 0\nend\npaper g from f\n";
    for (name, change, found) in [
        ("set-goal", "set mode 0 goal 1", "goal"),
        ("set-goals", "set mode 0 goals 5", "goals"),
    ] {
        malformed(
            name,
            &format!("{mode}{change}\n"),
            "",
            &format!("x.cases:7: expected one of `signal`, each at most once, found `{found}`"),
        );
    }
    let given = "paper f\nmode signal 0 goal 0 goals 1\nend\npaper g from f\n";
    malformed(
        "goals-not-last",
        &format!("{given}set mode 0 goals 5 goal 1\n"),
        "",
        "x.cases:7: expected goals (a number from 0 to 65535), found `goal`",
    );
    malformed(
        "goal-twice",
        &format!("{given}set mode 0 goal 5 goal 1\n"),
        "",
        "x.cases:7: expected one of `signal`, `goal`, `goals`, each at most once, found `goal`",
    );
}
