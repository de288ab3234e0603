//! Document 01's bench cases.

mod common;

use common::{amounts, bytes, l_with, L, L_TEXT};
use second::certificate::Greens;
use second::conditions::{check_flows, check_pull_sums};
use second::flow::{next_queues, FINER};
use second::grid::{cell_of, cells};
use second::image::image;
use second::reading::read;
use second::{judge, listing, Cabinet, Certificate, Report, State, Verdict};

fn report(number: u32, a: u64, b: u64, count: u64) -> Report {
    Report {
        number,
        a,
        b,
        count,
    }
}

fn certificate(text: &str) -> Certificate {
    read(&bytes(text)).expect("a certificate that can be read")
}

#[test]
fn p1_l_is_accepted() {
    assert_eq!(bytes(L_TEXT), L);
    assert_eq!(judge(&L), Verdict::accepted(4, 0));
}

#[test]
fn p2_image_that_ends_at_5_touches_cell_1() {
    let high = l_with("arrivals 0-2", "arrivals 0-3");
    assert_eq!(judge(&high).report, report(15, 1, 1, 3));
}

#[test]
fn p3_rank_0_without_goal() {
    assert_eq!(
        judge(&l_with("rank 1", "rank 0")).report,
        report(13, 1, 0, 1)
    );
}

#[test]
fn goal_without_rank_0() {
    assert_eq!(
        judge(&l_with("rank 0", "rank 1")).report,
        report(13, 0, 0, 0)
    );
}

#[test]
fn p4_successor_not_listed() {
    let second = "entry cell 1 mode 0 signal 0 next 0 rank 1\n";
    assert_eq!(judge(&l_with(second, "")).report, report(14, 1, 1, 3));
}

#[test]
fn p5_cell_not_safe() {
    assert_eq!(
        judge(&l_with("safe 10", "safe 9")).report,
        report(12, 2, 0, 2)
    );
}

#[test]
fn p6_shared_supply() {
    let two_links = certificate(
        "link tail 0 head 1 cap 40 flow 10 safe 40 goal 40
         link tail 1 head 2 cap 40 flow 10 safe 40 goal 40
         turn from 0 to 1 share 33 pull 34
         signal green 0
         grid
         grid
         arrivals 0-0 0-0
         entry cell 0 mode 0 signal 0 next 0 rank 0
         end",
    );
    let green = Greens::same(1);
    let next = next_queues(&two_links, green, &amounts(&[10, 20]), &amounts(&[]), 1);
    // 3.2 and 22.244
    assert_eq!(next, amounts(&[32_000, 222_440]));
}

#[test]
fn p7_red_link_keeps_to_its_cap() {
    let red = certificate(&L_TEXT.replace("green 0", "green none"));
    let next = next_queues(&red, Greens::same(0), &amounts(&[19]), &amounts(&[4]), 2);
    assert_eq!(next, amounts(&[10 * 2 * FINER]));
}

/// Flow 10 into cap 40 with flow 10.
fn p8_text(pull: u32) -> String {
    format!(
        "link tail 0 head 1 cap 40 flow 10 safe 40 goal 40
         link tail 1 head 2 cap 40 flow 10 safe 40 goal 40
         turn from 0 to 1 share 100 pull {pull}
         signal green 0
         grid
         grid
         arrivals 0-0 0-0
         entry cell 0 mode 0 signal 0 next 0 rank 0
         end"
    )
}

#[test]
fn p8_flow_condition() {
    assert_eq!(check_flows(&certificate(&p8_text(34))), Ok(()));
    assert_eq!(judge(&bytes(&p8_text(34))).report, report(0, 0, 0, 1));
    assert_eq!(judge(&bytes(&p8_text(33))).report, report(11, 0, 0, 0));
}

/// Two green turns into link 2, share 100.
fn p9_text(pull: u32) -> String {
    format!(
        "link tail 0 head 1 cap 40 flow 10 safe 40 goal 40
         link tail 0 head 1 cap 40 flow 10 safe 40 goal 40
         link tail 1 head 2 cap 40 flow 10 safe 40 goal 40
         turn from 0 to 2 share 100 pull {pull}
         turn from 1 to 2 share 100 pull 50
         signal green none
         signal green 0 1
         grid
         grid
         grid
         arrivals 0-0 0-0 0-0
         entry cell 0 mode 0 signal 0 next 0 rank 0
         end"
    )
}

#[test]
fn p9_pull_sum() {
    assert_eq!(check_pull_sums(&certificate(&p9_text(50))), Ok(()));
    assert_eq!(judge(&bytes(&p9_text(50))).report, report(0, 0, 0, 1));
    assert_eq!(judge(&bytes(&p9_text(51))).report, report(10, 1, 2, 0));
}

#[test]
fn p10_query_at_scale_2() {
    let l = Cabinet::of(&L).unwrap();
    assert_eq!(cell_of(&l, &[9], 2), Some(0));
    assert_eq!(cell_of(&l, &[10], 2), Some(1));
    assert_eq!(cell_of(&l, &[20], 2), Some(2));
    assert_eq!(cell_of(&l, &[21], 2), None);
    let mut state = State::fresh();
    assert!(state.load(&L).is_accepted());
    for queue in [9, 10, 20] {
        assert_eq!(state.query(&[queue], 2).report, Report::SUCCESS);
    }
    assert_eq!(state.query(&[21], 2).report, report(16, 0, 0, 0));
}

#[test]
fn p11_link_with_the_same_tail_pushes_down() {
    let shared = certificate(
        "link tail 0 head 1 cap 40 flow 10 safe 40 goal 40
         link tail 1 head 2 cap 40 flow 10 safe 40 goal 40
         link tail 1 head 3 cap 40 flow 10 safe 40 goal 40
         turn from 0 to 1 share 50 pull 34
         turn from 0 to 2 share 50 pull 34
         signal green 0
         grid 10 11
         grid 20 21
         grid 20
         arrivals 0-0 0-0 0-0
         entry cell 9 mode 0 signal 0 next 0 rank 0
         end",
    );
    // Second interval of each link: (1 × 3 + 1) × 2 + 1.
    let cell = &cells(&shared)[9];
    let edges: Vec<_> = cell.iter().map(|i| (i.low, i.high)).collect();
    assert_eq!(edges, [(10, 11), (20, 21), (20, 40)]);
    let green = Greens::same(shared.signals[0]);
    let image = image(&shared, green, cell, &shared.arrivals[0]);
    assert_eq!((image.low[1], image.high[1]), (200_000, 242_300));
}

#[test]
fn empty_short_and_long_input() {
    assert_eq!(judge(&[]).report, report(1, 0, 0, 0));
    assert_eq!(judge(&L[..65]).report, report(1, 64, 0, 0));
    for byte in [0x00, 0x5A, 0xFF] {
        let mut long = L.to_vec();
        long.push(byte);
        assert_eq!(judge(&long).report, report(2, 66, 0, 0));
    }
}

#[test]
fn listing_of_l() {
    let whole = "\
links 1 turns 0 signals 1 modes 1 arrivals 1 entries 3
0 0 0 0 0
1 0 0 0 1
2 0 0 0 2
accepted 4 0
";
    assert_eq!(listing(&L), (whole.to_string(), Verdict::accepted(4, 0)));
    let high = l_with("arrivals 0-2", "arrivals 0-3");
    assert_eq!(listing(&high).0, "refused 15 1 1 3\n");
    assert_eq!(listing(&[]).0, "refused 1 0 0 0\n");
}
