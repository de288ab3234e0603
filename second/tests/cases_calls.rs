//! Lines of stored cases for loads with overflows, and for polls.
//! Those for comparisons come after them.

mod common;

use common::folder::{folder, malformed, EMPTY};
use common::L_TEXT;
use second::cases::run;

/// An acceptance has the number of entries that may overflow, a refusal has not.
#[test]
fn overflows_of_loads() {
    let cases = "case c\nload e\n";
    malformed(
        "overflow-missing",
        cases,
        "case c\nload 0 0 0 4 mode 0 length 66\n",
        "x.due:2: expected `overflow`, found `mode`",
    );
    malformed(
        "overflow-empty",
        cases,
        "case c\nload 0 0 0 4 overflow mode 0 length 66\n",
        "x.due:2: expected how many entries may overflow (a number from 0 to 18446744073709551615), found `mode`",
    );
    malformed(
        "overflow-refused",
        cases,
        "case c\nload 3 0 0 0 overflow 0 mode 0 length 0\n",
        "x.due:2: expected `mode`, found `overflow`",
    );
}

#[test]
fn overflows_that_differ_are_told() {
    let text =
        "link tail 0 head 1 cap 4 flow 4 safe 4 goal 4\nsignal green none\ngrid\narrivals 0-1\n\
                entry cell 0 mode 0 signal 0 next 0 rank 0\nend\n";
    let cases = format!("paper p\n{text}case c\nload p\nload p\nlist p\n");
    let head = "links 1 turns 0 signals 1 modes 1 arrivals 1 entries 1";
    let due = format!(
        "case c\nload 0 0 0 1 overflow 0 mode 0 length 44\nload 0 0 0 1 overflow 1 mode 0 length 44\n\
         list\n| {head}\n| 0 0 0 0 0\n| accepted 1 1\n"
    );
    let told = run(&folder("overflow-told", &cases, &due)).unwrap();
    assert_eq!((told.calls, told.agreed()), (3, 2));
    assert!(told.mismatches[0].ends_with(
        "due load 0 0 0 1 overflow 0 mode 0 length 44\n  got load 0 0 0 1 overflow 1 mode 0 length 44"
    ));
    let due = due.replace("accepted 1 1", "accepted 1");
    let told = run(&folder("overflow-listed", &cases, &due)).unwrap();
    assert_eq!(told.agreed(), 1);
    assert!(told.mismatches[1].ends_with("accepted 1 1\\n\""));
}

#[test]
fn polls_that_differ_are_told() {
    let cases = format!("{EMPTY}case c\npoll fault 0a 7ff8000000000000\npoll bytes none\n");
    let due =
        "case c\npoll 21 3 0 0 signal 0 green 00 mode 0\npoll 18 0 0 0 signal 0 green 00 mode 0\n";
    let told = run(&folder("poll-told", &cases, due)).unwrap();
    assert_eq!((told.calls, told.agreed()), (2, 1));
    assert!(told.mismatches[0].ends_with(
        "x.cases:4: case c: poll fault 0a 7ff8000000000000\n  \
         due poll 21 3 0 0 signal 0 green 00 mode 0\n  got poll 18 0 0 0 signal 0 green 00 mode 0"
    ));
}

/// The line of a poll is refused, as something else was expected there.
fn bad_poll(line: &str, expected: &str) {
    let name = format!("bad-{}", line.replace(' ', "-"));
    let message = format!("x.cases:4: expected {expected}");
    malformed(&name, &format!("case c\n{line}\n"), "", &message);
}

#[test]
fn bad_readings() {
    let reading = "`fault` or a reading of 16 hexadecimal digits";
    for word in ["none", "4014", "+000000000000000", "5.0", "fault00"] {
        bad_poll(
            &format!("poll {word}"),
            &format!("`bytes`, {reading}, found `{word}`"),
        );
    }
    bad_poll(
        "poll",
        &format!("`bytes`, {reading}, found the end of the line"),
    );
    for word in ["bytes", "40140000000000000", "40140000"] {
        bad_poll(
            &format!("poll 0000000000000000 {word}"),
            &format!("{reading}, found `{word}`"),
        );
    }
}

#[test]
fn bad_faults_and_bytes_of_polls() {
    let byte = "a byte of two hexadecimal digits";
    let end = "found the end of the line";
    bad_poll("poll fault", &format!("{byte}, {end}"));
    bad_poll("poll fault 100", &format!("{byte}, found `100`"));
    bad_poll("poll bytes", &format!("`none` or {byte}, {end}"));
    bad_poll("poll bytes 00 none", &format!("{byte}, found `none`"));
    bad_poll("poll bytes 0", &format!("{byte}, found `0`"));
    bad_poll("poll bytes none 00", "the end of the line, found `00`");
}

#[test]
fn results_of_polls() {
    let cases = "case c\npoll bytes none\n";
    malformed(
        "poll-as-query",
        cases,
        "case c\nquery 18 0 0 0 signal 0 green 00 mode 0\n",
        "x.due:2: expected the result of a poll, found `query 18 0 0 0 signal 0 green 00 mode 0`",
    );
    malformed(
        "poll-number",
        cases,
        "case c\npoll 29 0 0 0 signal 0 green 00 mode 0\n",
        "x.due:2: expected the result's number (a number from 0 to 28), found `29`",
    );
    malformed(
        "poll-green",
        cases,
        "case c\npoll 18 0 0 0 signal 0 green 256 mode 0\n",
        "x.due:2: expected a byte of two hexadecimal digits, found `256`",
    );
}

/// L as `p`, with a higher rank as `q`, with both lower and higher ones as `r`, and refused with 15 as `s`.
fn offices() -> String {
    format!(
        "{EMPTY}paper p\n{L_TEXT}paper q from p\nset entry 2 rank 4\n\
         paper r from p\nset entry 1 rank 2\nset entry 2 rank 3\npaper s from p\nset entry 2 rank 1\n"
    )
}

const COMPARED: &str = "\
case c
compare p p
compare p q
compare q p
compare q r
compare e s
compare s e
compare p s
compare s p
";

const COMPARED_DUE: &str = "\
case c
compare 0 0 0 0 equal
compare 0 0 0 0 first
compare 0 0 0 0 second
compare 0 0 0 0 neither
compare 3 0 0 0 refused
compare 15 2 1 4 refused
compare 15 2 1 4 refused
compare 15 2 1 4 refused
";

#[test]
fn comparisons_agree() {
    let cases = offices() + COMPARED;
    let told = run(&folder("compared", &cases, COMPARED_DUE)).unwrap();
    assert_eq!((told.calls, told.agreed()), (8, 8));
}

/// Another word, another refusal or another place: the call differs, and the line tells both.
#[test]
fn comparisons_that_differ_are_told() {
    let cases = offices() + COMPARED;
    for (old, new) in [
        ("0 0 0 0 equal", "0 0 0 0 first"),
        ("0 0 0 0 second", "0 0 0 0 neither"),
        ("0 0 0 0 neither", "0 0 0 1 neither"),
        ("0 0 0 0 first", "3 0 0 0 refused"),
        ("3 0 0 0 refused", "0 0 0 0 equal"),
        ("3 0 0 0 refused", "15 2 1 4 refused"),
        ("3 0 0 0 refused", "3 1 0 0 refused"),
    ] {
        let due = COMPARED_DUE.replace(old, new);
        let told = run(&folder("compared-told", &cases, &due)).unwrap();
        assert_eq!((told.calls, told.agreed()), (8, 7), "{new}");
        let lines = format!("due compare {new}\n  got compare {old}");
        assert!(told.mismatches[0].ends_with(&lines), "{new}");
    }
}

/// The state that there is stays as it is, and does not count.
#[test]
fn comparisons_take_no_state() {
    let calls = "case c\nload q\nquery scale 1 queues 9\ncompare p q\ncompare e p\nwrite buffer 66 start 0\n\
                 state e mode 7\ncompare p q\nquery scale 1 queues 9\n";
    let due = "case c\nload 0 0 0 4 overflow 0 mode 0 length 66\nquery 0 0 0 0 signal 0 green 01 mode 0\n\
               compare 0 0 0 0 first\ncompare 3 0 0 0 refused\nwrite 0 66 0 0 holds q from 0\n\
               compare 0 0 0 0 first\nquery 18 0 0 0 signal 0 green 00 mode 7\n";
    let told = run(&folder("compared-state", &(offices() + calls), due)).unwrap();
    assert_eq!((told.calls, told.agreed()), (7, 7), "{:?}", told.mismatches);
}

/// The line of a comparison is refused, as something else was expected there.
#[test]
fn bad_comparisons() {
    let name = "the name of a certificate, found the end of the line";
    for (at, line, expected) in [
        (1, "compare", name),
        (2, "compare e", name),
        (3, "compare e e e", "the end of the line, found `e`"),
        (4, "compare g e", "a `paper g`"),
        (5, "compare e h", "a `paper h`"),
        (6, "compare g h", "a `paper g`"),
    ] {
        malformed(
            &format!("bad-comparison-{at}"),
            &format!("case c\n{line}\n"),
            "case c\ncompare 3 0 0 0 refused\n",
            &format!("x.cases:4: expected {expected}"),
        );
    }
}

#[test]
fn results_of_comparisons() {
    let words = "`equal`, `first`, `second` or `neither`";
    for (at, line, message) in [
        (
            1,
            "compare 0 0 0 0",
            format!("{words}, found the end of the line"),
        ),
        (
            2,
            "compare 0 0 0 0 refused",
            format!("{words}, found `refused`"),
        ),
        (
            3,
            "compare 0 0 0 0 better",
            format!("{words}, found `better`"),
        ),
        (
            4,
            "compare 3 0 0 0 equal",
            "`refused`, found `equal`".to_string(),
        ),
        (
            5,
            "compare 3 0 0 0",
            "`refused`, found the end of the line".to_string(),
        ),
        (
            6,
            "compare 3 0 0 0 refused mode",
            "the end of the line, found `mode`".to_string(),
        ),
        (7, "compare 0 0 0 first", count("first")),
        (
            8,
            "compare equal",
            "the result's number (a number from 0 to 28), found `equal`".to_string(),
        ),
        (
            9,
            "list",
            "the result of a compare, found `list`".to_string(),
        ),
        (
            10,
            "equal",
            "`case`, `load`, `query`, `poll`, `write`, `list` or `compare`, found `equal`"
                .to_string(),
        ),
    ] {
        malformed(
            &format!("comparison-result-{at}"),
            "case c\ncompare e e\n",
            &format!("case c\n{line}\n"),
            &format!("x.due:2: expected {message}"),
        );
    }
    malformed(
        "comparison-of-a-list",
        "case c\nlist e\n",
        "case c\ncompare 0 0 0 0 equal\n",
        "x.due:2: expected the result of a list, found `compare 0 0 0 0 equal`",
    );
}

/// A word where the count was expected.
fn count(found: &str) -> String {
    format!(
        "the count (a number from 0 to {}), found `{found}`",
        u64::MAX
    )
}
