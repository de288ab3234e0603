//! Pictures of H3 certificates: goals by mode, and refusals of their own.

mod common;

use common::goals::{goals, goals_text_with, goals_with, CORRIDOR};
use common::{bytes, start, L};
use second::draw::draw;

fn picture(bytes: &[u8]) -> String {
    draw(bytes, None).unwrap().0
}

/// Is this a whole line of the picture's text?
fn has(picture: &str, text: &str) -> bool {
    picture.contains(&format!(">{text}</text>"))
}

/// How often this is a whole line.
fn count(picture: &str, text: &str) -> usize {
    picture.matches(&format!(">{text}</text>")).count()
}

#[test]
fn goals_of_modes() {
    let picture = picture(&goals());
    assert!(has(&picture, "accepted 16 0"));
    for (mode, (signal, goal)) in [(0, 0), (0, 1), (1, 1)].into_iter().enumerate() {
        let title = format!("Mode {mode}, after signal {signal}, goal {goal}");
        assert!(has(&picture, &title));
    }
    // One line over each grid, by the goal of its mode.
    assert_eq!(
        (count(&picture, "goal 5"), count(&picture, "goal 8")),
        (1, 2)
    );
    assert!(picture.contains("Each mode has a goal."));
    assert!(has(&picture, "Goals in turn"));
    assert!(has(&picture, "1 2"));
}

/// The goal of a link is not used, so it is not shown.
#[test]
fn goals_of_links() {
    let picture = picture(&goals());
    assert!(has(&picture, "safe 10"));
    assert!(!picture.contains("goal 3"));
    assert_eq!(self::picture(&goals_with("goal 3", "goal 9")), picture);
}

#[test]
fn goals_of_each_axis() {
    let picture = picture(&bytes(CORRIDOR));
    for text in ["goal 5", "goal 10"] {
        assert_eq!(count(&picture, text), 2, "{text}");
    }
    assert!(has(&picture, "safe 10"));
    assert!(!picture.contains("safe 10 ·"));
}

/// Nothing of it stands in the picture of another certificate.
#[test]
fn other_certificates() {
    for certificate in [&L[..], &start()] {
        let picture = picture(certificate);
        assert!(has(&picture, "safe 10 · goal 5"));
        for words in ["Each mode has a goal", "in turn", ", goal "] {
            assert!(!picture.contains(words), "{words}");
        }
    }
}

#[test]
fn refused_for_an_entry() {
    let over = picture(&goals_with("goals 5", "goals 4"));
    assert!(over.contains("Upper edges over goal: link 0: 5 above goal 4."));
    let text = goals_text_with("signal 0 next 1 rank 1", "signal 0 next 0 rank 0");
    let over = picture(&bytes(&text));
    assert!(over.contains("Upper edges over goal: link 0: 10 above goal 8."));
}

#[test]
fn refused_in_reading() {
    let mode = "a mode (MD) names a missing signal, or its goal is out of bounds or does not go with the others";
    for (faulty, line) in [
        (
            goals_with("header kind H3", "header kind H3 links 9"),
            "refused 3: a count of the header (H3) is out of bounds (A 0, B 0, count 0)".to_string(),
        ),
        (
            goals_with("mode signal 1", "mode signal 2"),
            format!("refused 6: {mode} (A 41, B 0, count 0)"),
        ),
        (
            goals_with("goals 5", "goals 11"),
            format!("refused 6: {mode} (A 29, B 0, count 0)"),
        ),
        (
            goals_with("green none", "green 1"),
            "refused 6: a signal (SG) has a green link that is not there (A 26, B 0, count 0)".to_string(),
        ),
        (
            goals_with("next 0 rank 2", "next 0 rank 0"),
            "refused 24: an entry's (EN) next mode has another goal number than its rank asks for (A 114, B 0, count 0)"
                .to_string(),
        ),
    ] {
        assert!(has(&picture(&faulty), &line), "{line}");
    }
}
