//! Pictures of H2 certificates: start flows, what each mode remembers, and refusals of their own.

mod common;

use common::{as_hd, bytes, crossing, start, start_crossing, start_with, L, START_TEXT};
use second::draw::draw;

fn picture(bytes: &[u8]) -> String {
    draw(bytes, None).unwrap().0
}

/// Is this a whole line of the picture's text?
fn has(picture: &str, text: &str) -> bool {
    picture.contains(&format!(">{text}</text>"))
}

const START_WORDS: &str = "Start is the most that a link sends in a green step after a red one.";
const MEMORY_WORDS: &str =
    "Each mode remembers the signal shown before: a green link that was red in it sends at most \
    its start flow.";

#[test]
fn start_flows_and_modes() {
    let picture = picture(&start());
    assert!(has(&picture, "accepted 9 0"));
    assert!(has(&picture, "cap 10 · flow 6 · start 2"));
    assert!(has(&picture, "safe 10 · goal 5"));
    for (mode, signal) in [0, 1, 0].into_iter().enumerate() {
        assert!(has(
            &picture,
            &format!("Mode {mode}, after signal {signal}")
        ));
    }
    assert!(has(&picture, START_WORDS));
    assert!(has(&picture, MEMORY_WORDS));
}

/// Eight links in a row have one amount a line.
#[test]
fn narrow_labels() {
    let mut text = "header kind H2\n".to_string();
    for link in 0..8 {
        let head = link + 1;
        let start = 10 + link;
        text +=
            &format!("link tail {link} head {head} cap 40 flow 20 safe 30 goal 10 start {start}\n");
    }
    text += "signal green none\nmode signal 0\n";
    text += &"grid\n".repeat(8);
    text += &format!("arrivals{}\n", " 0-0".repeat(8));
    text += "entry cell 0 mode 0 signal 0 next 0 rank 0\nend\n";
    let picture = picture(&bytes(&text));
    assert_eq!(picture.matches(">flow 20</text>").count(), 8);
    for link in 0..8 {
        assert!(has(&picture, &format!("start {}", 10 + link)));
    }
}

/// Nothing of it stands in the picture of an HD certificate.
#[test]
fn other_certificates() {
    for certificate in [&L[..], &crossing(), &bytes(&as_hd(START_TEXT))] {
        let picture = picture(certificate);
        assert!(has(&picture, "Mode 0"));
        for words in ["start ", "Start ", "after signal", "remembers"] {
            assert!(!picture.contains(words), "{words}");
        }
    }
}

/// An entry that fails by its start flow is outlined with its successor in the next mode's grid.
#[test]
fn refused_for_an_entry() {
    let picture = picture(&start_with("start 2", "start 4"));
    assert!(has(
        &picture,
        "refused 14: successor not listed (A 4, B 0, count 6)"
    ));
    assert!(picture.contains("cell 0 in mode 2 (link 0: 0–5); not listed for mode 2"));
    let pull = start_crossing().replace("pull 34", "pull 33");
    let pull = self::picture(&bytes(&pull));
    assert!(has(
        &pull,
        "refused 11: flow condition fails (A 0, B 0, count 0)"
    ));
    assert!(has(&pull, "Mode 1, after signal 0"));
}

#[test]
fn refused_in_reading() {
    for (faulty, line) in [
        (
            start_with("header kind H2", "header kind H2 links 9"),
            "refused 3: a count of the header (H2) is out of bounds (A 0, B 0, count 0)",
        ),
        (
            start_with("start 2", "start 7"),
            "refused 4: a field of a link (LK) is out of bounds (A 9, B 0, count 0)",
        ),
        (
            start_with("green none", "green 1"),
            "refused 6: a signal (SG) has a green link that is not there (A 26, B 0, count 0)",
        ),
        (
            start_with("mode signal 1", "mode signal 2"),
            "refused 6: a mode (MD) names a missing signal (A 32, B 0, count 0)",
        ),
        (
            start_with("next 2 rank 3", "next 1 rank 3"),
            "refused 23: an entry's (EN) next mode remembers another signal than the entry's (A 87, B 0, count 0)",
        ),
        (
            bytes("header links 9\nend\n"),
            "refused 3: a count of the header (HD) is out of bounds (A 0, B 0, count 0)",
        ),
        (
            start()[..1].to_vec(),
            "refused 1: fewer bytes than the due record or its mark needs (A 0, B 0, count 0)",
        ),
        (
            start()[..105].to_vec(),
            "refused 1: fewer bytes than the due record or its mark needs (A 105, B 0, count 0)",
        ),
    ] {
        assert!(has(&picture(&faulty), line), "{line}");
    }
}
