//! Links that may exceed their cap: what an image says of each, and how many entries have one.

mod common;

use common::{bytes, sound, BESIDE, L, L_TEXT};
use second::certificate::Greens;
use second::flow::{next_queues, uncut_queues, FINER};
use second::grid::cells;
use second::image::image;
use second::{judge, listing, Report, State, Verdict};

/// Which links may exceed their cap under the first signal, by cell and arrival box.
fn over(text: &str, cell: usize, arrivals: usize) -> Vec<bool> {
    let certificate = sound(text);
    let cell = &cells(&certificate)[cell];
    let arrivals = &certificate.arrivals[arrivals];
    let greens = Greens::same(certificate.signals[0]);
    let image = image(&certificate, greens, cell, arrivals);
    let links = certificate.links.len();
    assert!(image.over[links..].iter().all(|over| !over));
    assert_eq!(image.overflows(), image.over.contains(&true));
    image.over[..links].to_vec()
}

/// L with the link red and these arrivals: cells 0 to 5, 5 to 8 and 8 to 10.
fn red(arrivals: &str) -> String {
    let text = L_TEXT.replace("green 0", "green none");
    text.replace("arrivals 0-2", &format!("arrivals {arrivals}"))
}

#[test]
fn exactly_cap_is_no_overflow() {
    for (cell, exactly) in [(0, 5), (1, 2), (2, 0)] {
        assert_eq!(over(&red(&format!("0-{exactly}")), cell, 0), [false]);
        assert_eq!(over(&red(&format!("0-{}", exactly + 1)), cell, 0), [true]);
        assert_eq!(
            over(&red(&format!("{exactly}-{exactly}")), cell, 0),
            [false]
        );
    }
}

/// The upper edge of an interval that does not hold it, and the greatest arrivals of the one box that is asked for.
#[test]
fn edges_and_boxes() {
    let text = red("2-2").replace(
        "arrivals 2-2\n",
        "arrivals 2-2\narrivals 0-3\narrivals 0-0\n",
    );
    assert_eq!(
        [0, 1, 2].map(|arrivals| over(&text, 1, arrivals)[0]),
        [false, true, false]
    );
    assert_eq!(
        [0, 1, 2].map(|arrivals| over(&text, 0, arrivals)[0]),
        [false; 3]
    );
    assert_eq!(
        [0, 1, 2].map(|arrivals| over(&text, 2, arrivals)[0]),
        [true, true, false]
    );
}

#[test]
fn what_is_sent_makes_room() {
    let green = |high: u16| L_TEXT.replace("arrivals 0-2", &format!("arrivals 0-{high}"));
    assert_eq!(over(&green(6), 2, 0), [false]);
    assert_eq!(over(&green(7), 2, 0), [true]);
    assert_eq!(over(&green(8), 1, 0), [false]);
    assert_eq!(over(&green(9), 1, 0), [true]);
    // Cell 0 is sent whole.
    assert_eq!(over(&green(10), 0, 0), [false]);
    assert_eq!(over(&green(11), 0, 0), [true]);
}

/// Document 01's P11 with arrivals on link 1: it exceeds 40 only where link 2, beside it, is at its lower edge.
#[test]
fn the_link_beside_is_at_its_lower_edge() {
    let text = |high: u16| {
        format!(
            "link tail 0 head 1 cap 40 flow 10 safe 40 goal 40
             link tail 1 head 2 cap 40 flow 10 safe 40 goal 40
             link tail 1 head 3 cap 40 flow 10 safe 40 goal 40
             turn from 0 to 1 share 50 pull 34
             turn from 0 to 2 share 50 pull 34
             signal green 0
             grid 10 11
             grid 20 21
             grid 20
             arrivals 0-0 0-{high} 0-0
             entry cell 9 mode 0 signal 0 next 0 rank 0
             end"
        )
    };
    // 24.23 and the arrivals; with all links at their upper edges 21 and the arrivals.
    assert_eq!(over(&text(15), 9, 0), [false, false, false]);
    assert_eq!(over(&text(16), 9, 0), [false, true, false]);
    let certificate = sound(&text(16));
    let step = |beside: i128| {
        let queues = [11, 21, beside, 0, 0, 0, 0, 0];
        let arrivals = [0, 16, 0, 0, 0, 0, 0, 0];
        uncut_queues(&certificate, Greens::same(1), &queues, &arrivals, 1)[1]
    };
    assert_eq!((step(20), step(40)), (402_300, 370_000));
}

/// A link of flow 10 into one of cap 40 and flow 10, which holds up to 39 in its first cell.
fn fractions(high: u16) -> String {
    format!(
        "link tail 0 head 1 cap 40 flow 10 safe 40 goal 40
         link tail 1 head 2 cap 40 flow 10 safe 40 goal 40
         turn from 0 to 1 share 33 pull 34
         signal green 0
         grid
         grid 39
         arrivals 0-0 0-{high}
         entry cell 0 mode 0 signal 0 next 0 rank 0
         end"
    )
}

/// 39.1122 before arrivals: more than 40 with one, though 40 when rounded down.
#[test]
fn fractions_just_above_cap() {
    assert_eq!(over(&fractions(0), 0, 0), [false, false]);
    assert_eq!(over(&fractions(1), 0, 0), [false, true]);
    let red = fractions(1).replace("green 0", "green none");
    assert_eq!(over(&red, 0, 0), [false, false]);
    let certificate = sound(&fractions(1));
    let (queues, arrivals) = ([40, 39, 0, 0, 0, 0, 0, 0], [0, 1, 0, 0, 0, 0, 0, 0]);
    let green = Greens::same(1);
    let uncut = uncut_queues(&certificate, green, &queues, &arrivals, 1);
    assert_eq!(uncut[1], 401_122);
    let next = next_queues(&certificate, green, &queues, &arrivals, 1);
    assert_eq!(next[1], 40 * FINER);
}

/// The least amount above cap that whole queues and arrivals can lead to: 101.0001.
#[test]
fn one_ten_thousandth_above_cap() {
    let text = "link tail 0 head 1 cap 1 flow 1 safe 1 goal 1
         link tail 1 head 2 cap 101 flow 1 safe 101 goal 101
         turn from 0 to 1 share 1 pull 1
         signal green 0
         grid
         grid 100
         arrivals 0-0 0-1
         entry cell 0 mode 0 signal 0 next 0 rank 0
         end";
    assert_eq!(over(text, 0, 0), [false, true]);
    assert_eq!(over(&text.replace("0-1", "0-0"), 0, 0), [false, false]);
    assert_eq!(
        over(&text.replace("green 0", "green none"), 0, 0),
        [false, false]
    );
}

/// Link 0 sends nothing where link 1 is full, and 5 where it has room.
#[test]
fn a_full_link_ahead() {
    let text = "link tail 0 head 1 cap 10 flow 5 safe 10 goal 10
         link tail 1 head 2 cap 20 flow 5 safe 20 goal 20
         turn from 0 to 1 share 100 pull 100
         signal green 0
         grid
         grid 15
         arrivals 0-5 0-0
         entry cell 0 mode 0 signal 0 next 0 rank 0
         end";
    assert_eq!(over(text, 0, 0), [false, false]);
    assert_eq!(over(text, 1, 0), [true, false]);
    assert_eq!(over(&text.replace("0-5", "0-0"), 1, 0), [false, false]);
}

#[test]
fn entries_of_every_rank_count() {
    assert_eq!(judge(&bytes(BESIDE)), Verdict::accepted(4, 3));
    let none = BESIDE.replace("0-2 0-1", "0-2 0-0");
    assert_eq!(judge(&bytes(&none)), Verdict::accepted(4, 0));
    assert_eq!(judge(&L), Verdict::accepted(4, 0));
}

/// However many links and boxes; and in whichever box it is.
#[test]
fn an_entry_counts_once() {
    let boxes = |lines: &str| bytes(&BESIDE.replace("arrivals 0-2 0-1\n", lines));
    let none = "arrivals 0-2 0-0\n";
    let some = "arrivals 0-2 0-1\n";
    assert_eq!(
        judge(&boxes(&[none, some].concat())),
        Verdict::accepted(8, 3)
    );
    assert_eq!(
        judge(&boxes(&[some, none].concat())),
        Verdict::accepted(8, 3)
    );
    assert_eq!(judge(&boxes(&some.repeat(8))), Verdict::accepted(32, 3));
    let two_links = "\
        link tail 0 head 1 cap 4 flow 4 safe 4 goal 4\n\
        link tail 0 head 1 cap 4 flow 4 safe 4 goal 4\n\
        signal green none\n\
        grid\n\
        grid\n\
        arrivals 0-1 1-2\n\
        arrivals 3-3 0-9\n\
        entry cell 0 mode 0 signal 0 next 0 rank 0\n\
        end\n";
    assert_eq!(judge(&bytes(two_links)), Verdict::accepted(2, 1));
}

/// Some entries of a certificate and not others: all cells are goal, and the last may reach 11.
#[test]
fn some_entries_count() {
    let text = L_TEXT.replace("goal 5", "goal 10");
    let text = text.replace("rank 1", "rank 0").replace("rank 2", "rank 0");
    for (high, overflows) in [(6, 0), (7, 1), (8, 1), (9, 2), (10, 2), (11, 3)] {
        let text = text.replace("arrivals 0-2", &format!("arrivals 0-{high}"));
        let verdict = judge(&bytes(&text));
        assert!(verdict.is_accepted());
        assert_eq!(verdict.overflows, overflows, "{high}");
    }
}

/// A refusal has 0, also where entries before it overflow, and where the refused entry does.
#[test]
fn a_refusal_has_none() {
    for (old, new, number) in [
        ("safe 10", "safe 9", 12),
        ("rank 2", "rank 0", 13),
        ("entry cell 1 mode 0 signal 0 next 0 rank 1\n", "", 14),
        ("rank 2", "rank 1", 15),
        ("arrivals 0-2", "arrivals 0-3", 15),
        ("rank 2", "rank 9", 0),
    ] {
        let verdict = judge(&bytes(&BESIDE.replace(old, new)));
        assert_eq!(verdict.report.number, number, "{new}");
        let due = if number == 0 { 3 } else { 0 };
        assert_eq!(verdict.overflows, due, "{new}");
    }
}

#[test]
fn loads_and_listings_tell_it() {
    let certificate = bytes(BESIDE);
    let due = Verdict::accepted(4, 3);
    let mut state = State::fresh();
    assert_eq!(state.load(&certificate), due);
    let (text, verdict) = listing(&certificate);
    assert_eq!(verdict, due);
    assert!(text.ends_with("\n2 0 0 0 2\naccepted 4 3\n"));
    let refused = bytes(&BESIDE.replace("rank 2", "rank 0"));
    let due = Verdict::refused(Report::at(13, 2).counting(2));
    assert_eq!(state.load(&refused), due);
    assert_eq!(state.stored[..state.length], certificate);
    assert_eq!(listing(&refused), ("refused 13 2 0 2\n".to_string(), due));
}
