//! Images, verdicts and listings of H2 certificates.

mod common;

use common::{amounts, as_hd, bytes, sound, start, start_with, START_TEXT};
use second::certificate::{Entry, Greens};
use second::flow::{uncut_queues, FINER};
use second::grid::cells;
use second::image::image;
use second::{judge, listing, Report, Verdict};

fn refused(number: u32, a: usize, b: usize, count: u64) -> Verdict {
    Verdict::refused(Report::at(number, a).and(b).counting(count))
}

#[test]
fn greens_of_entries() {
    let certificate = sound(START_TEXT);
    let greens = certificate.entries.iter().map(|e| certificate.greens(e));
    let before: Vec<u8> = greens.clone().map(|greens| greens.before).collect();
    assert_eq!(before, [1, 1, 1, 1, 0, 1]);
    assert!(greens.clone().all(|greens| greens.now == 1));
    let hd = sound(&as_hd(START_TEXT));
    let same = |entry: &Entry| hd.greens(entry) == Greens::same(1);
    assert!(hd.entries.iter().all(same));
}

/// Ends of the image of an entry of the H2 certificate, and whether it may exceed cap.
fn ends(text: &str, entry: usize) -> (i128, i128, bool) {
    let certificate = sound(text);
    let entry = &certificate.entries[entry];
    let cell = &cells(&certificate)[usize::from(entry.cell)];
    let greens = certificate.greens(entry);
    let image = image(&certificate, greens, cell, &certificate.arrivals[0]);
    (image.low[0] / FINER, image.high[0] / FINER, image.over[0])
}

#[test]
fn images_of_entries() {
    // Cells 0 to 5, 5 to 8 and 8 to 10, each with up to 2 arrivals.
    for (entry, due) in [
        (0, (0, 2)),
        (1, (0, 4)),
        (2, (0, 4)),
        (3, (2, 6)),
        (5, (2, 6)),
    ] {
        assert_eq!(ends(START_TEXT, entry), (due.0, due.1, false), "{entry}");
    }
    assert_eq!(ends(START_TEXT, 4), (6, 10, false));
    assert_eq!(ends(&as_hd(START_TEXT), 4), (2, 6, false));
    let slow = START_TEXT.replace("start 2", "start 1");
    assert_eq!(ends(&slow, 4), (7, 10, true));
}

#[test]
fn verdicts() {
    assert_eq!(judge(&start()), Verdict::accepted(9, 0));
    let hd = bytes(&as_hd(START_TEXT));
    assert_eq!(hd.len(), 96);
    // By full flow the last cell leads to cell 0, which is not listed for mode 2.
    assert_eq!(judge(&hd), refused(14, 4, 0, 6));
}

/// From the last cell in mode 1: 8 to 10 less the start flow, with up to 2 arrivals.
#[test]
fn verdicts_by_start_flow() {
    for (flow, due) in [
        (1, Verdict::accepted(9, 1)),
        (2, Verdict::accepted(9, 0)),
        (3, Verdict::accepted(9, 0)),
        (4, refused(14, 4, 0, 6)),
        (5, refused(14, 4, 0, 6)),
        (6, refused(14, 4, 0, 6)),
    ] {
        let bytes = start_with("start 2", &format!("start {flow}"));
        assert_eq!(judge(&bytes), due, "{flow}");
    }
}

/// The mode of the entry decides, not its next mode and not the entry before.
#[test]
fn verdicts_by_memory() {
    // Mode 1 remembers green: the last cell is left by full flow.
    let green = start_with("mode signal 1", "mode signal 0");
    assert_eq!(judge(&green), refused(14, 4, 0, 6));
    // A second red signal is as good as the first.
    let red = "signal green none\nsignal green none\nmode signal 0\nmode signal 2\n";
    let red = start_with("signal green none\nmode signal 0\nmode signal 1\n", red);
    assert_eq!(judge(&red), Verdict::accepted(9, 0));
    // A rank of 2 does not suffice: cell 2 in mode 2 has rank 2 as well, and is the second successor.
    let rank = start_with("next 2 rank 3", "next 2 rank 2");
    assert_eq!(judge(&rank), refused(15, 4, 2, 7));
    // Without the entry of cell 1 in mode 2 the first successor is missing.
    let gap = start_with("entry cell 1 mode 2 signal 0 next 0 rank 1\n", "");
    assert_eq!(judge(&gap), refused(14, 3, 1, 5));
}

/// Every cell in mode 1, where at most 2 are sent.
#[test]
fn all_cells_after_red() {
    let entries = "\
        entry cell 0 mode 1 signal 0 next 0 rank 0\n\
        entry cell 1 mode 0 signal 0 next 0 rank 1\n\
        entry cell 1 mode 1 signal 0 next 0 rank 2\n\
        entry cell 1 mode 2 signal 0 next 0 rank 1\n";
    let old = "\
        entry cell 1 mode 0 signal 0 next 0 rank 1\n\
        entry cell 1 mode 2 signal 0 next 0 rank 1\n";
    // Cell 0 after red: 0 to 3 and up to 2 arrivals touch cell 1. Cell 1 after red: 3 to 8 meet all three cells.
    let all = start_with(old, entries).len();
    assert_eq!(all, 107 + 18);
    let text = START_TEXT.replace(old, entries);
    assert_eq!(ends(&text, 1), (0, 5, false));
    assert_eq!(ends(&text, 3), (3, 8, false));
    // Cell 2 in mode 0 has rank 2: too high for rank 2.
    assert_eq!(judge(&bytes(&text)), refused(15, 3, 2, 1 + 2 + 1 + 3));
    let higher = text.replace(
        "mode 1 signal 0 next 0 rank 2",
        "mode 1 signal 0 next 0 rank 3",
    );
    assert_eq!(judge(&bytes(&higher)), Verdict::accepted(9 + 2 + 3, 0));
}

/// Two links that share a junction: link 1 is green in both modes, in the first after red.
fn overflowing(high: u16) -> String {
    format!(
        "header kind H2
link tail 0 head 1 cap 10 flow 6 safe 10 goal 10 start 3
link tail 0 head 1 cap 10 flow 6 safe 10 goal 10 start 2
signal green 0
signal green 1
mode signal 0
mode signal 1
grid
grid
arrivals 0-0 0-{high}
entry cell 0 mode 0 signal 1 next 1 rank 0
entry cell 0 mode 1 signal 1 next 1 rank 0
end
"
    )
}

#[test]
fn overflows() {
    // 10 less 2 in mode 0, 10 less 6 in mode 1.
    for (high, due) in [(0, 0), (2, 0), (3, 1), (6, 1), (7, 2)] {
        let text = overflowing(high);
        assert_eq!(judge(&bytes(&text)), Verdict::accepted(2, due), "{high}");
        let hd = bytes(&as_hd(&text));
        let due = if high > 6 { 2 } else { 0 };
        assert_eq!(judge(&hd), Verdict::accepted(2, due), "{high}");
    }
    let certificate = sound(&overflowing(3));
    let [first, second] = [0, 1].map(|entry| certificate.greens(&certificate.entries[entry]));
    let uncut = |greens| {
        let (queues, arrivals) = (amounts(&[10, 10]), amounts(&[0, 3]));
        uncut_queues(&certificate, greens, &queues, &arrivals, 1)
    };
    assert_eq!(uncut(first), amounts(&[100_000, 110_000]));
    assert_eq!(uncut(second), amounts(&[100_000, 70_000]));
}

/// Neither kind, start flows nor modes are listed.
#[test]
fn listings() {
    let whole = "\
links 1 turns 0 signals 2 modes 3 arrivals 1 entries 6
0 0 0 0 0
1 0 0 0 1
1 2 0 0 1
2 0 0 0 2
2 1 0 2 3
2 2 0 0 2
accepted 9 0
";
    assert_eq!(
        listing(&start()),
        (whole.to_string(), Verdict::accepted(9, 0))
    );
    let slow = listing(&start_with("start 2", "start 1")).0;
    assert_eq!(slow, whole.replace("accepted 9 0", "accepted 9 1"));
    let hd = listing(&bytes(&as_hd(START_TEXT))).0;
    assert_eq!(hd, "refused 14 4 0 6\n");
}
