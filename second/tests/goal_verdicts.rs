//! Verdicts and listings of H3 certificates: rank 0 exactly in the goal of the entry's mode.

mod common;

use common::goals::{as_h2, goals, goals_text_with, goals_with, CORRIDOR, GOALS_TEXT};
use common::{as_hd, bytes};
use second::{judge, listing, Report, Verdict};

fn refused(number: u32, a: usize, b: usize, count: u64) -> Verdict {
    Verdict::refused(Report::at(number, a).and(b).counting(count))
}

#[test]
fn accepted() {
    // By entries: 2, 1, 2; 1, 1, 3; 2, 2, 2.
    assert_eq!(judge(&goals()), Verdict::accepted(16, 0));
    // By cells: 2 and 2, 4 and 2, 2 and 4, 1 and 1; with both queues long, the red link may exceed its cap.
    assert_eq!(judge(&bytes(CORRIDOR)), Verdict::accepted(18, 2));
    // By the LK goal of 3 no cell is in the goal.
    assert_eq!(judge(&bytes(&as_h2(GOALS_TEXT))), refused(13, 0, 0, 0));
    let hd = as_hd(&as_h2(GOALS_TEXT));
    assert_eq!(judge(&bytes(&hd)), refused(13, 0, 0, 0));
}

/// LK goals decide nothing, whichever cells they hold.
#[test]
fn goals_of_links_are_not_used() {
    for goal in 0..=10 {
        let bytes = goals_with("goal 3", &format!("goal {goal}"));
        assert_eq!(judge(&bytes), Verdict::accepted(16, 0), "{goal}");
    }
    for goals in [[0, 0], [5, 10], [10, 5], [10, 10]] {
        let text = CORRIDOR
            .replace("goal 10 start", &format!("goal {} start", goals[0]))
            .replace("goal 0 start", &format!("goal {} start", goals[1]));
        assert_eq!(judge(&bytes(&text)), Verdict::accepted(18, 2), "{goals:?}");
    }
}

/// Each amount of a goal: upper edges of cells are 5, 8 and 10.
#[test]
fn amounts_of_goals() {
    for goal in 0..=10 {
        let due = match goal {
            // Cell 0 has rank 0 in mode 0, cell 1 rank 1.
            0..=4 => refused(13, 0, 0, 0),
            5..=7 => Verdict::accepted(16, 0),
            _ => refused(13, 3, 0, 5),
        };
        let bytes = goals_with("goals 5", &format!("goals {goal}"));
        assert_eq!(judge(&bytes), due, "{goal}");
        let due = match goal {
            // Cells 0 and 1 have rank 0 in mode 1, cell 2 rank 1.
            0..=4 => refused(13, 1, 0, 2),
            5..=7 => refused(13, 4, 0, 6),
            8..=9 => Verdict::accepted(16, 0),
            _ => refused(13, 7, 0, 12),
        };
        let bytes = goals_with("goals 8", &format!("goals {goal}"));
        assert_eq!(judge(&bytes), due, "{goal}");
    }
}

/// Each link's amount against its own upper edge.
#[test]
fn amounts_of_each_link() {
    for (old, new, due) in [
        ("goals 5 10", "goals 4 10", refused(13, 0, 0, 0)),
        ("goals 5 10", "goals 5 9", refused(13, 2, 0, 4)),
        ("goals 5 10", "goals 10 10", refused(13, 4, 0, 10)),
        ("goals 10 5", "goals 10 4", refused(13, 1, 0, 2)),
        ("goals 10 5", "goals 9 5", refused(13, 5, 0, 12)),
        ("goals 10 5", "goals 10 10", refused(13, 3, 0, 8)),
    ] {
        let text = CORRIDOR.replace(old, new);
        assert_eq!(judge(&bytes(&text)), due, "{new}");
    }
    // The other way round each mode's first cell still is in its goal, and the second is not.
    let swapped = CORRIDOR
        .replace("goals 5 10", "goals x")
        .replace("goals 10 5", "goals 5 10")
        .replace("goals x", "goals 10 5");
    assert_eq!(judge(&bytes(&swapped)), refused(13, 2, 0, 4));
}

/// Ranks of an entry against the goal of its mode: 24 where a rank 0 stays, 13 where the number is passed on too early.
#[test]
fn ranks_and_goals() {
    let cell_1 = "entry cell 1 mode 0 signal 0 next 0 rank 1";
    // To mode 1 with rank 0: the number is passed on, but cell 1 is not in goal 0.
    let early = goals_with(cell_1, "entry cell 1 mode 0 signal 0 next 1 rank 0");
    assert_eq!(judge(&early), refused(13, 3, 0, 5));
    let stays = goals_with(cell_1, "entry cell 1 mode 0 signal 0 next 0 rank 0");
    assert_eq!(judge(&stays), refused(24, 60 + 3 * 9, 0, 0));
    // With rank 1 cell 0 in mode 1 keeps the number, but is in goal 1.
    let cell_0 = "entry cell 0 mode 1 signal 0 next 0 rank 0";
    let late = goals_with(cell_0, "entry cell 0 mode 1 signal 0 next 1 rank 1");
    assert_eq!(judge(&late), refused(13, 1, 0, 2));
    let changes = goals_with(cell_0, "entry cell 0 mode 1 signal 0 next 0 rank 1");
    assert_eq!(judge(&changes), refused(24, 60 + 9, 0, 0));
}

/// 15 within one goal; a rank 0 asks nothing of the ranks that it leads to.
#[test]
fn ranks_of_successors() {
    let last = "mode 2 signal 0 next 1 rank 2";
    let equal = goals_with(last, "mode 2 signal 0 next 1 rank 1");
    assert_eq!(judge(&equal), refused(15, 8, 2, 16));
    // Cell 1 in mode 2 has rank 0 and leads to ranks 0, 1 and 2 of goal 0.
    let higher = goals_with(
        "mode 0 signal 0 next 0 rank 2",
        "mode 0 signal 0 next 0 rank 900",
    );
    assert_eq!(judge(&higher), Verdict::accepted(16, 0));
    let unlisted = goals_with("entry cell 2 mode 0 signal 0 next 0 rank 2\n", "");
    assert_eq!(judge(&unlisted), refused(14, 5, 2, 10));
}

/// Safe comes from the links, before the goal.
#[test]
fn safe_before_goal() {
    let text = goals_text_with("safe 10", "safe 9");
    assert_eq!(judge(&bytes(&text)), refused(12, 6, 0, 10));
    let both = text.replace(
        "mode 0 signal 0 next 0 rank 2",
        "mode 0 signal 0 next 1 rank 0",
    );
    assert_eq!(judge(&bytes(&both)), refused(12, 6, 0, 10));
}

/// The start flow is that of the mode's memory, as in H2.
#[test]
fn start_flows() {
    // From cells 0 and 1 after red by full flow: 0 to 2 and 0 to 4, from cell 2: 2 to 6.
    let full = goals_with("start 2", "start 6");
    assert_eq!(
        judge(&full),
        Verdict::accepted(2 + 1 + 1 + 1 + 1 + 1 + 2 + 2 + 2, 0)
    );
    let slow = goals_with("start 2", "start 1");
    assert_eq!(judge(&slow), Verdict::accepted(16, 1));
}

/// Neither kind nor goals are listed.
#[test]
fn listings() {
    let whole = "\
links 1 turns 0 signals 2 modes 3 arrivals 1 entries 9
0 0 1 2 0
0 1 0 0 0
0 2 0 0 0
1 0 0 0 1
1 1 0 0 0
1 2 0 0 0
2 0 0 0 2
2 1 0 1 1
2 2 0 1 2
accepted 16 0
";
    let due = (whole.to_string(), Verdict::accepted(16, 0));
    assert_eq!(listing(&goals()), due);
    let gap = listing(&goals_with("goal 0 goals 5", "goal 2 goals 5")).0;
    assert_eq!(gap, "refused 6 41 0 0\n");
}

/// One goal for all modes gives what the H2 certificate with that LK goal gives.
#[test]
fn a_single_goal_is_as_in_h2() {
    for rank in [1, 2, 3] {
        let h2 = common::START_TEXT.replace("next 2 rank 3", &format!("next 2 rank {rank}"));
        for goal in 0..=10 {
            let h2 = h2.replace("goal 5", &format!("goal {goal}"));
            let h3 = h2.replace("kind H2", "kind H3");
            let h3 = h3.replace(&format!("goal {goal} start"), "goal 0 start");
            let mode = |text: String, signal: u8| {
                let line = format!("mode signal {signal}\n");
                text.replace(
                    &line,
                    &format!("mode signal {signal} goal 0 goals {goal}\n"),
                )
            };
            let h3 = mode(mode(h3, 0), 1);
            assert_eq!(judge(&bytes(&h3)), judge(&bytes(&h2)), "{rank} {goal}");
        }
    }
}
