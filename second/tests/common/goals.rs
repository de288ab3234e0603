//! H3 certificates that several tests use.

use super::bytes;

/// An H3 certificate of 143 bytes: L's link with a start flow, an LK goal of 3 that is not used, and two goals in turn.
/// Goal 0 is met in cell 0, goal 1 in cells 0 and 1. Mode 2 comes after red.
pub const GOALS_TEXT: &str = "\
header kind H3
link tail 0 head 1 cap 10 flow 6 safe 10 goal 3 start 2
signal green 0
signal green none
mode signal 0 goal 0 goals 5
mode signal 0 goal 1 goals 8
mode signal 1 goal 1 goals 8
grid 5 8
arrivals 0-2
entry cell 0 mode 0 signal 1 next 2 rank 0
entry cell 0 mode 1 signal 0 next 0 rank 0
entry cell 0 mode 2 signal 0 next 0 rank 0
entry cell 1 mode 0 signal 0 next 0 rank 1
entry cell 1 mode 1 signal 0 next 0 rank 0
entry cell 1 mode 2 signal 0 next 0 rank 0
entry cell 2 mode 0 signal 0 next 0 rank 2
entry cell 2 mode 1 signal 0 next 1 rank 1
entry cell 2 mode 2 signal 0 next 1 rank 2
end
";

/// Two links into one junction: goal 0 asks for a short queue of link 0, goal 1 for one of link 1. A mode remembers the
/// signal that serves its own goal.
pub const CORRIDOR: &str = "\
header kind H3
link tail 0 head 1 cap 10 flow 7 safe 10 goal 10 start 3
link tail 0 head 1 cap 10 flow 7 safe 10 goal 0 start 3
signal green 0
signal green 1
mode signal 0 goal 0 goals 5 10
mode signal 1 goal 1 goals 10 5
grid 5
grid 5
arrivals 0-1 0-1
entry cell 0 mode 0 signal 1 next 1 rank 0
entry cell 0 mode 1 signal 0 next 0 rank 0
entry cell 1 mode 0 signal 1 next 1 rank 0
entry cell 1 mode 1 signal 1 next 1 rank 1
entry cell 2 mode 0 signal 0 next 0 rank 1
entry cell 2 mode 1 signal 0 next 0 rank 0
entry cell 3 mode 0 signal 0 next 0 rank 1
entry cell 3 mode 1 signal 1 next 1 rank 1
end
";

/// The H3 certificate.
pub fn goals() -> Vec<u8> {
    bytes(GOALS_TEXT)
}

/// The text of the H3 certificate with one part changed.
pub fn goals_text_with(old: &str, new: &str) -> String {
    assert!(GOALS_TEXT.contains(old), "there is no `{old}`");
    GOALS_TEXT.replace(old, new)
}

/// The H3 certificate with one part of its text changed.
pub fn goals_with(old: &str, new: &str) -> Vec<u8> {
    bytes(&goals_text_with(old, new))
}

/// The H3 certificate with these bytes from an offset on.
pub fn poked(offset: usize, new: &[u8]) -> Vec<u8> {
    let mut bytes = goals();
    bytes[offset..offset + new.len()].copy_from_slice(new);
    bytes
}

/// The text of an H3 certificate as H2: without the goals of modes.
pub fn as_h2(text: &str) -> String {
    let lines = text.lines().map(|line| match line.split_once(" goal ") {
        Some((mode, _)) if line.starts_with("mode ") => mode.to_string(),
        _ => line.replace("header kind H3", "header kind H2"),
    });
    lines.map(|line| line + "\n").collect()
}
