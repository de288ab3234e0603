//! Stored cases: those of the product, this checker's own, and malformed ones.

mod common;

use common::folder::{folder, malformed, EMPTY};
use second::cases::run;
use std::path::Path;

/// Runs a folder beside this package; every call must agree.
fn all_agree(folder: &str) {
    let folder = Path::new(env!("CARGO_MANIFEST_DIR")).join(folder);
    let outcome = run(&folder).unwrap_or_else(|fault| panic!("{fault}"));
    assert!(outcome.calls > 0);
    assert!(
        outcome.mismatches.is_empty(),
        "{}\n{} of {} calls agreed",
        outcome.mismatches.join("\n"),
        outcome.agreed(),
        outcome.calls
    );
}

#[test]
fn stored_cases_agree() {
    all_agree("../cases");
}

#[test]
fn own_cases_agree() {
    all_agree("tests/data");
}

#[test]
fn own_comparisons_agree() {
    all_agree("tests/data/comparisons");
}

#[test]
fn mismatches_are_told() {
    let cases = format!("{EMPTY}case c\nload e\nwrite buffer 2 start 0\nlist e\n");
    let due =
        "case c\nload 3 0 0 1 mode 0 length 0\nwrite 18 0 0 0 kept\nlist\n| refused 3 0 0 0\n";
    let told = run(&folder("told", &cases, due)).unwrap();
    assert_eq!((told.cases, told.calls, told.agreed()), (1, 3, 2));
    let text = &told.mismatches[0];
    assert!(text.ends_with(
        "x.cases:4: case c: load e\n  due load 3 0 0 1 mode 0 length 0\n  got load 3 0 0 0 mode 0 length 0"
    ));
    let due = "case c\nload 3 0 0 0 mode 0 length 0\nwrite 0 2 0 0 holds e from 0\nlist\n| no\n";
    let told = run(&folder("told-more", &cases, due)).unwrap();
    assert_eq!(told.agreed(), 1);
    assert!(told.mismatches[0].ends_with("got write 18 0 0 0 kept"));
    assert!(told.mismatches[1].ends_with("got list \"refused 3 0 0 0\\n\""));
}

#[test]
fn missing_results_and_cases() {
    let list = "list\n| refused 3 0 0 0\n";
    malformed(
        "no-due",
        "case c\nlist e\n",
        "",
        "x.cases:3: case c has no due result",
    );
    malformed(
        "no-case",
        "",
        &format!("case c\n{list}"),
        "x.due:1: case c is not in x.cases",
    );
    malformed(
        "other-case",
        "case c\nlist e\n",
        &format!("case d\n{list}"),
        "x.due:1: expected case c, found case d",
    );
}

#[test]
fn missing_results_and_calls() {
    let list = "list\n| refused 3 0 0 0\n";
    malformed(
        "no-result",
        "case c\nlist e\nlist e\n",
        &format!("case c\n{list}"),
        "x.cases:5: `list e` has no due result",
    );
    malformed(
        "no-call",
        "case c\nlist e\n",
        &format!("case c\n{list}{list}"),
        "x.due:4: `list` has no call",
    );
    malformed(
        "other-call",
        "case c\nload e\n",
        &format!("case c\n{list}"),
        "x.due:2: expected the result of a load, found `list`",
    );
}

#[test]
fn names_and_idle_cases() {
    let list = "list\n| refused 3 0 0 0\n";
    malformed(
        "twice",
        "case c\nlist e\ncase c\nlist e\n",
        &format!("case c\n{list}case c\n{list}"),
        "x.cases:5: expected a new name, found case `c` again",
    );
    malformed(
        "idle",
        "case c\nfresh\n",
        "case c\n",
        "x.cases:3: case c has no call with a result",
    );
}

#[test]
fn bad_lines_of_cases() {
    let none = run(&folder("none", EMPTY, "")).expect_err("none");
    assert!(none.ends_with("none: no case was found"));
    malformed(
        "again",
        "paper e\nend\n",
        "",
        "x.cases:3: expected a new name, found `e` again",
    );
    malformed(
        "endless",
        "paper f\ngrid\ncase c\n",
        "",
        "x.cases:3: paper f: expected an `end` line before the end of the text",
    );
    malformed(
        "unknown",
        "paper f from g\n",
        "",
        "x.cases:3: expected an earlier `paper g`",
    );
}

#[test]
fn bad_changes() {
    malformed(
        "late",
        "paper f from e\ncut 1\nremove end\n",
        "",
        "x.cases:5: expected `cut`, `poke` or `append`: bytes are changed already",
    );
    malformed(
        "absent",
        "paper f from e\nset link 0 cap 1\n",
        "",
        "x.cases:4: expected a certificate with link 0",
    );
    malformed(
        "long-cut",
        "paper f from e\ncut 12\n",
        "",
        "x.cases:4: expected how many bytes are kept (a number from 0 to 11), found `12`",
    );
    malformed(
        "long-poke",
        "paper f from e\npoke 10 00 00\n",
        "",
        "x.cases:4: expected at most 1 bytes from offset 10 on, found 2",
    );
}

#[test]
fn bad_changes_of_kinds() {
    malformed(
        "other-kind",
        "paper f from e\nset header kind H4\n",
        "",
        "x.cases:4: expected `HD`, `H2` or `H3`, found `H4`",
    );
    malformed(
        "kind-twice",
        "paper f from e\nset header kind H2 links 1 kind HD\n",
        "",
        "x.cases:4: expected one of `kind`, `links`, `turns`, `signals`, `modes`, `arrivals`, `entries`, \
         each at most once, found `kind`",
    );
}

#[test]
fn bad_changes_of_modes() {
    malformed(
        "no-mode",
        "paper f from e\nset mode 0 signal 1\n",
        "",
        "x.cases:4: expected a certificate with mode 0",
    );
    malformed(
        "mode-field",
        "paper f\nmode signal 0\nend\npaper g from f\nset mode 0 next 1\n",
        "",
        "x.cases:7: expected one of `signal`, each at most once, found `next`",
    );
    malformed(
        "set-signal",
        "paper f from e\nset signal 0 green 1\n",
        "",
        "x.cases:4: expected one of `header`, `link`, `turn`, `mode`, `entry`, found `signal`",
    );
    malformed(
        "remove-header",
        "paper f from e\nremove header\n",
        "",
        "x.cases:4: expected one of `link`, `turn`, `signal`, `mode`, `grid`, `arrivals`, `entry`, `end`, \
         found `header`",
    );
}

#[test]
fn bad_calls_and_results() {
    malformed(
        "unknown-call",
        "case c\nload g\n",
        "case c\nload 0 0 0 0 overflow 0 mode 0 length 0\n",
        "x.cases:4: expected a `paper g`",
    );
    malformed(
        "odd-call",
        "case c\nask e\n",
        "",
        "x.cases:4: expected `fresh`, `state`, `load`, `query`, `poll`, `write` or `list`, found `ask`",
    );
    malformed(
        "odd-due",
        "case c\nload e\n",
        "case c\nload 0 0 0\n",
        "x.due:2: expected the count (a number from 0 to 18446744073709551615), found the end of the line",
    );
}

/// Numbers that no call gives yet can be due; the call then differs.
#[test]
fn later_numbers_are_told() {
    let cases = format!("{EMPTY}case c\nload e\nload e\n");
    let due = "case c\nload 24 0 0 0 mode 0 length 0\nload 28 0 0 0 mode 0 length 0\n";
    let told = run(&folder("later", &cases, due)).unwrap();
    assert_eq!((told.calls, told.agreed()), (2, 0));
    let got = "due load 28 0 0 0 mode 0 length 0\n  got load 3 0 0 0 mode 0 length 0";
    assert!(told.mismatches[1].ends_with(got));
}
