//! Certificates that several tests use, and numbers for them.
#![allow(dead_code)]

pub mod folder;
pub mod goals;
pub mod large;
pub mod offices;
pub mod program;
pub mod run;

use second::certificate::Kind;
use second::conditions::read_sound;
use second::flow::Amounts;
use second::reading::read;
use second::text::encode;
use second::{judge, Certificate, Report, Verdict};

/// Document 01's L, byte for byte.
pub const L: [u8; 66] = [
    0x48, 0x44, 0x01, 0x00, 0x01, 0x01, 0x01, 0x00, 0x03, // HD
    0x4C, 0x4B, 0x00, 0x01, 0x00, 0x0A, 0x00, 0x06, 0x00, 0x0A, 0x00, 0x05, // LK
    0x53, 0x47, 0x01, // SG
    0x47, 0x52, 0x03, 0x00, 0x05, 0x00, 0x08, // GR
    0x41, 0x52, 0x00, 0x00, 0x00, 0x02, // AR
    0x45, 0x4E, 0x00, 0x00, 0x00, 0x00, 0x00, 0x00, 0x00, // EN
    0x45, 0x4E, 0x00, 0x01, 0x00, 0x00, 0x00, 0x00, 0x01, // EN
    0x45, 0x4E, 0x00, 0x02, 0x00, 0x00, 0x00, 0x00, 0x02, // EN
    0x5A, 0x5A, // ZZ
];

/// L as text.
pub const L_TEXT: &str = "\
link tail 0 head 1 cap 10 flow 6 safe 10 goal 5
signal green 0
grid 5 8
arrivals 0-2
entry cell 0 mode 0 signal 0 next 0 rank 0
entry cell 1 mode 0 signal 0 next 0 rank 1
entry cell 2 mode 0 signal 0 next 0 rank 2
end
";

/// An H2 certificate of 107 bytes: L's link with a start flow, and modes that remember green, red and green. Only in
/// mode 1, and so from the last cell alone, the link sends up to its start flow.
pub const START_TEXT: &str = "\
header kind H2
link tail 0 head 1 cap 10 flow 6 safe 10 goal 5 start 2
signal green 0
signal green none
mode signal 0
mode signal 1
mode signal 0
grid 5 8
arrivals 0-2
entry cell 0 mode 0 signal 0 next 0 rank 0
entry cell 1 mode 0 signal 0 next 0 rank 1
entry cell 1 mode 2 signal 0 next 0 rank 1
entry cell 2 mode 0 signal 0 next 0 rank 2
entry cell 2 mode 1 signal 0 next 2 rank 3
entry cell 2 mode 2 signal 0 next 0 rank 2
end
";

/// L beside a red link that is full in its only interval; under every entry it may exceed its cap.
pub const BESIDE: &str = "\
link tail 0 head 1 cap 10 flow 6 safe 10 goal 5
link tail 0 head 1 cap 4 flow 4 safe 4 goal 4
signal green 0
grid 5 8
grid
arrivals 0-2 0-1
entry cell 0 mode 0 signal 0 next 0 rank 0
entry cell 1 mode 0 signal 0 next 0 rank 1
entry cell 2 mode 0 signal 0 next 0 rank 2
end
";

/// Three links, two turns, two signals, two modes and two arrival boxes.
/// In mode 0 link 0 drains into links 1 and 2; in mode 1 those drain. Everything is goal, so ranks are 0.
pub const CROSSING: &str = "\
link tail 0 head 1 cap 40 flow 10 safe 40 goal 40
link tail 1 head 2 cap 40 flow 10 safe 40 goal 40
link tail 1 head 3 cap 40 flow 10 safe 40 goal 40
turn from 0 to 1 share 50 pull 34
turn from 0 to 2 share 40 pull 40
signal green 0
signal green 1 2
grid 10 25
grid 20
grid
arrivals 0-3 0-0 0-1
arrivals 2-4 1-1 0-0
entry cell 0..5 mode 0 signal 0 next 1 rank 0
end
";

pub fn bytes(text: &str) -> Vec<u8> {
    encode(text).unwrap_or_else(|fault| panic!("line {fault}"))
}

/// The header line that a kind needs.
pub fn header_of(kind: Kind) -> String {
    match kind {
        Kind::Hd => String::new(),
        kind => format!("header kind {}\n", kind.name()),
    }
}

/// A certificate that passes every test before 12.
pub fn sound(text: &str) -> Certificate {
    read_sound(&bytes(text)).unwrap_or_else(|refusal| panic!("{refusal}"))
}

/// The bytes are refused in reading, with this number and place A.
pub fn refused(bytes: &[u8], number: u32, a: usize) {
    let report = Report::at(number, a);
    assert_eq!(read(bytes), Err(report), "{bytes:02X?}");
    assert_eq!(judge(bytes), Verdict::refused(report), "{bytes:02X?}");
}

/// Amounts by link, 0 behind the given ones.
pub fn amounts(values: &[i128]) -> Amounts {
    let mut amounts = [0; 8];
    amounts[..values.len()].copy_from_slice(values);
    amounts
}

/// The crossing with its entries: every cell in both modes.
pub fn crossing() -> Vec<u8> {
    let mut entries = String::new();
    for cell in 0..6 {
        for mode in 0..2 {
            let next = 1 - mode;
            entries += &format!("entry cell {cell} mode {mode} signal {mode} next {next} rank 0\n");
        }
    }
    let one = "entry cell 0..5 mode 0 signal 0 next 1 rank 0\n";
    bytes(&CROSSING.replace(one, &entries))
}

/// The H2 certificate.
pub fn start() -> Vec<u8> {
    bytes(START_TEXT)
}

/// The H2 certificate with one part of its text changed.
pub fn start_with(old: &str, new: &str) -> Vec<u8> {
    assert!(START_TEXT.contains(old), "there is no `{old}`");
    bytes(&START_TEXT.replace(old, new))
}

/// The text of an H2 certificate as HD: without the kind, start flows and modes.
pub fn as_hd(text: &str) -> String {
    let lines = text.lines().filter(|line| !line.starts_with("mode "));
    let lines = lines.map(|line| match line.split_once(" start ") {
        Some((link, _)) => link.to_string(),
        None => line.replace("header kind H2", "header"),
    });
    lines.map(|line| line + "\n").collect()
}

/// The crossing as H2: its modes remember each other's signal.
pub fn start_crossing() -> String {
    let text = CROSSING.replace("goal 40\n", "goal 40 start 5\n");
    let modes = "signal green 1 2\nmode signal 1\nmode signal 0\n";
    let text = text.replace("signal green 1 2\n", modes);
    format!("header kind H2\n{text}")
}

/// L with one part of its text changed.
pub fn l_with(old: &str, new: &str) -> Vec<u8> {
    assert!(L_TEXT.contains(old), "L has no `{old}`");
    bytes(&L_TEXT.replace(old, new))
}

/// A plain row of numbers that look random, the same in every run.
pub struct Numbers(pub u64);

impl Numbers {
    /// From `low` to `high`, both included.
    pub fn between(&mut self, low: u64, high: u64) -> u64 {
        self.0 = self.0.wrapping_mul(6364136223846793005);
        self.0 = self.0.wrapping_add(1442695040888963407);
        low + (self.0 >> 33) % (high - low + 1)
    }
}
