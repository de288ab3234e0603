//! Pictures: the stored ones, what they show of verdicts, and how the command ends.

mod common;

use common::large::Large;
use common::program::{ends, ends_with_2, second};
use common::{bytes, crossing, l_with, BESIDE, L};
use second::draw::draw;
use std::fs;
use std::path::Path;

/// A file of the repository.
fn stored(name: &str) -> String {
    let path = Path::new(env!("CARGO_MANIFEST_DIR")).join("..").join(name);
    fs::read_to_string(&path).unwrap_or_else(|error| panic!("{}: {error}", path.display()))
}

fn two_junctions() -> String {
    stored("cases/two-junctions.txt")
}

/// The worked example with up to 2 vehicles on link 0.
fn busier() -> String {
    let text = two_junctions();
    assert!(text.contains("arrivals 0-1 0-1\n"));
    text.replace("arrivals 0-1 0-1\n", "arrivals 0-2 0-1\n")
}

fn picture(bytes: &[u8]) -> String {
    draw(bytes, None).unwrap().0
}

/// How many elements have this class.
fn count(picture: &str, class: &str) -> usize {
    picture.matches(&format!(" class=\"{class}\"")).count()
}

/// To store them anew: bin/encode and bin/draw, as the README of second/ says.
#[test]
fn stored_pictures_are_made_again() {
    for (name, text, code) in [
        ("docs/pictures/two-junctions.svg", two_junctions(), 0),
        ("docs/pictures/busier.svg", busier(), 1),
    ] {
        let due = stored(name);
        ends(&["draw", "-"], &bytes(&text), code, due.as_bytes(), "");
    }
}

#[test]
fn accepted() {
    let l = picture(&L);
    assert!(l.contains(">Signal policy certificate: accepted</text>"));
    assert!(l.contains(">accepted 4 0</text>"));
    assert!(l.contains(
        ">No arrivals are turned away: under no entry may a link exceed its cap.</text>"
    ));
    assert!(l.contains(">cap 10 · flow 6</text>") && l.contains(">safe 10 · goal 5</text>"));
    assert_eq!(count(&l, "junction"), 1);
    // The three cells of the row, and in the legend a sample, three shades and the hatching.
    assert_eq!(count(&l, "cell"), 3 + 5);
    assert_eq!(l.matches("url(#hatch)").count(), 1);
    assert_eq!((count(&l, "entry"), count(&l, "successor")), (0, 0));
}

#[test]
fn accepted_with_overflows() {
    let picture = picture(&bytes(BESIDE));
    assert!(picture.contains(">accepted 4 3</text>"));
    let words = "Arrivals may be turned away: under 3 of 3 entries a link may exceed its cap.";
    assert!(picture.contains(&format!(">{words}</text>")));
    assert!(!picture.contains("No arrivals"));
}

#[test]
fn refused_for_an_entry() {
    let unsafe_cell = picture(&l_with("safe 10", "safe 9"));
    assert!(unsafe_cell.contains(">refused 12: cell not safe (A 2, B 0, count 2)</text>"));
    assert!(unsafe_cell.contains("Upper edges over safe: link 0: 10 above safe 9."));
    // Each mark stands in the legend too.
    assert_eq!(count(&unsafe_cell, "entry"), 2);
    assert_eq!(count(&unsafe_cell, "successor"), 0);
    assert!(!unsafe_cell.contains("turned away"));
    let rank = picture(&l_with("rank 1", "rank 0"));
    assert!(rank.contains("goal without rank 0 (A 1, B 0, count 1)</text>"));
    assert!(rank.contains("Upper edges over goal: link 0: 8 above goal 5."));
    let goal = picture(&l_with("rank 0", "rank 1"));
    assert!(goal.contains("All its upper edges are at most goal, so its rank must be 0."));
}

#[test]
fn refused_for_a_successor() {
    let entry = "entry cell 1 mode 0 signal 0 next 0 rank 1\n";
    let unlisted = picture(&l_with(entry, ""));
    assert!(unlisted.contains(">refused 14: successor not listed (A 1, B 1, count 3)</text>"));
    assert!(
        unlisted.contains("cell 1 in mode 0 (link 0: 5–8); not listed for mode 0; dashed outline.")
    );
    for (class, due) in [("entry", 2), ("successor", 2), ("step", 2)] {
        assert_eq!(count(&unlisted, class), due, "{class}");
    }
    let not_lower = picture(&l_with("arrivals 0-2", "arrivals 0-3"));
    assert!(
        not_lower.contains(">refused 15: successor's rank not lower (A 1, B 1, count 3)</text>")
    );
    assert!(not_lower.contains("its rank 1 is not below the entry's rank 1; dashed outline."));
}

/// Three links: whatever has more than the least on link 0 is not in the slice of links 1 and 2.
#[test]
fn refused_outside_the_slice() {
    let faulty = common::CROSSING.replace("next 1 rank 0", "next 0 rank 0");
    let faulty = bytes(&faulty.replace("cell 0..5 mode", "cell 2 mode"));
    let first_two = draw(&faulty, None).unwrap().0;
    assert!(first_two.contains(">refused 14: successor not listed (A 0, B 0, count 1)</text>"));
    assert_eq!(
        (count(&first_two, "entry"), count(&first_two, "step")),
        (2, 2)
    );
    let last_two = draw(&faulty, Some([2, 1])).unwrap().0;
    assert!(last_two.contains("cell 2 in mode 0 (link 0: 10–25, link 1: 0–20, link 2: 0–40)"));
    assert!(last_two.contains("with rank 0; not in the drawn slice."));
    // The successor alone is outlined; the other marks stand in the legend only.
    let marks = ["entry", "successor", "step"].map(|class| count(&last_two, class));
    assert_eq!(marks, [1, 2, 1]);
}

/// Entry and successor stand in the grids of two modes.
#[test]
fn refused_in_another_mode() {
    let crossing = bytes(common::CROSSING);
    let picture = picture(&crossing);
    assert!(picture.contains(">refused 14: successor not listed (A 0, B 0, count 1)</text>"));
    assert!(picture.contains(
        "cell 0 in mode 1 (link 0: 0–10, link 1: 0–20, link 2: 0–40); not listed for mode 1"
    ));
    assert_eq!(count(&picture, "step"), 2);
}

#[test]
fn refused_for_the_network() {
    let pull_sum = picture(&bytes(&common::CROSSING.replace("pull 40", "pull 251")));
    assert!(pull_sum.contains(">refused 10: pull sum too high (A 0, B 2, count 0)</text>"));
    let flow = picture(&bytes(&common::CROSSING.replace("pull 34", "pull 33")));
    assert!(flow.contains(">refused 11: flow condition fails (A 0, B 0, count 0)</text>"));
    for picture in [pull_sum, flow] {
        assert_eq!(count(&picture, "junction"), 3);
        assert!(picture.contains(">Mode 0</text>") && picture.contains(">Mode 1</text>"));
    }
}

#[test]
fn refused_in_reading() {
    for (faulty, line) in [
        (
            &L[..65],
            "refused 1: fewer bytes than the due record or its mark needs (A 64, B 0, count 0)",
        ),
        (
            &l_with("flow 6", "flow 11")[..],
            "refused 4: a field of a link (LK) is out of bounds (A 9, B 0, count 0)",
        ),
        (
            &l_with("cell 2 mode", "cell 3 mode")[..],
            "refused 9: an entry (EN) names a missing cell, mode, signal or next mode (A 55, B 0, count 0)",
        ),
        (
            &l_with("cell 2 mode", "cell 1 mode")[..],
            "refused 22: an entry (EN) is not above the one before by cell and mode (A 55, B 0, count 0)",
        ),
    ] {
        let output = second(&["draw", "-", "0", "1"], faulty);
        assert_eq!(output.status.code(), Some(1));
        let picture = String::from_utf8(output.stdout).unwrap();
        assert!(picture.contains(&format!(">{line}</text>")), "{line}");
        assert_eq!(
            (count(&picture, "junction"), count(&picture, "cell")),
            (0, 0)
        );
    }
}

#[test]
fn named_links() {
    let crossing = crossing();
    for (words, code) in [(["0", "1"], 0), (["2", "0"], 0)] {
        let output = second(&["draw", "-", words[0], words[1]], &crossing);
        assert_eq!(output.status.code(), Some(code));
        let picture = String::from_utf8(output.stdout).unwrap();
        assert!(picture.contains(&format!(">queue of link {}</text>", words[0])));
    }
    let same = draw(&crossing, Some([0, 1])).unwrap();
    assert_eq!(same, draw(&crossing, None).unwrap());
    let message = "expected two links that differ (numbers from 0 to 7), found";
    for words in [
        ["0", "0"],
        ["0", "8"],
        ["", "1"],
        ["0", "+1"],
        ["00", "1"],
        ["0", "one"],
    ] {
        ends_with_2(&["draw", "-", words[0], words[1]], &crossing, message);
    }
    let itself = "link 1 cannot be drawn against itself".to_string();
    assert_eq!(draw(&crossing, Some([1, 1])), Err(itself));
    let absent = "-: link 3 is not there: links are 0 to 2\n";
    ends(&["draw", "-", "3", "0"], &crossing, 2, b"", absent);
    let single = "-: link 1 is not there: links are 0 to 0\n";
    ends(&["draw", "-", "0", "1"], &L, 2, b"", single);
}

#[test]
fn largest() {
    let large = Large {
        counts: [15, 15, 2, 1, 1, 1, 1, 1],
        modes: 8,
        rank: |_, _| Some(65_535),
    };
    let output = second(&["draw", "-"], &large.bytes());
    assert_eq!(output.status.code(), Some(1));
    let picture = String::from_utf8(output.stdout).unwrap();
    assert!(picture
        .contains(">8 links, 32 turns, 16 signals, 8 modes, 8 arrival boxes, 3600 entries</text>"));
    assert_eq!(count(&picture, "rank"), 8 * 15 * 15 + 1);
    let cells = Large {
        counts: [8, 8, 4, 4, 2, 2, 1, 1],
        modes: 1,
        rank: |_, _| Some(1),
    };
    let output = second(&["draw", "-", "7", "2"], &cells.bytes());
    assert_eq!(output.status.code(), Some(1));
    let picture = String::from_utf8(output.stdout).unwrap();
    assert!(picture.contains(" 4096 entries</text>"));
    assert_eq!(count(&picture, "rank"), 4 + 1);
}
