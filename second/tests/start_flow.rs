//! The flow rule with start flows: what a link sends after green and after red.

mod common;

use common::{amounts, as_hd, sound, START_TEXT};
use second::certificate::Greens;
use second::flow::{next_queues, FINER};

/// The next queue of the H2 certificate's link (flow 6, start flow 2) without arrivals.
fn next(now: u8, before: u8, queue: i128) -> i128 {
    let certificate = sound(START_TEXT);
    let greens = Greens { now, before };
    let next = next_queues(&certificate, greens, &amounts(&[queue]), &amounts(&[]), 1);
    assert_eq!(next[0] % FINER, 0);
    next[0] / FINER
}

#[test]
fn red_and_green_before_and_now() {
    assert_eq!(next(0, 0, 10), 10);
    assert_eq!(next(0, 1, 10), 10);
    assert_eq!(next(1, 0, 10), 8);
    assert_eq!(next(1, 1, 10), 4);
}

#[test]
fn queues_below_and_above_the_limit() {
    for queue in 0..=10 {
        assert_eq!(next(0, 0, queue), queue);
        assert_eq!(next(0, 1, queue), queue);
        assert_eq!(next(1, 0, queue), (queue - 2).max(0));
        assert_eq!(next(1, 1, queue), (queue - 6).max(0));
    }
    // 2.5 vehicles
    let half = next_queues(
        &sound(START_TEXT),
        Greens { now: 1, before: 0 },
        &amounts(&[5]),
        &amounts(&[]),
        2,
    );
    assert_eq!(half[0], FINER);
}

/// An HD link sends up to its flow, whatever was shown before.
#[test]
fn links_without_start_flow() {
    let hd = sound(&as_hd(START_TEXT));
    for before in [0, 1] {
        let greens = Greens { now: 1, before };
        let next = next_queues(&hd, greens, &amounts(&[10]), &amounts(&[]), 1);
        assert_eq!(next[0], 4 * FINER);
    }
}

/// Document 01's P6 as H2: flow 10 and start flow 4 into a link with cap 40.
const TWO_LINKS: &str = "\
header kind H2
link tail 0 head 1 cap 40 flow 10 safe 40 goal 40 start 4
link tail 1 head 2 cap 40 flow 10 safe 40 goal 40 start 1
turn from 0 to 1 share 33 pull 34
signal green 0
signal green none
signal green 1
mode signal 0
mode signal 1
mode signal 2
grid
grid
arrivals 0-0 0-0
entry cell 0 mode 0 signal 0 next 0 rank 0
end
";

/// The least of queue, limit and supply, each of them in turn.
#[test]
fn supplies() {
    let certificate = sound(TWO_LINKS);
    for (before, queues, due) in [
        // Supply 6.8: above the start flow, below the flow.
        (1, [10, 20], [32_000, 222_440]),
        (0, [10, 20], [60_000, 213_200]),
        // Supply 3.4: below both.
        (1, [10, 30], [66_000, 311_220]),
        (0, [10, 30], [66_000, 311_220]),
        // Supply 13.6: above both.
        (1, [10, 0], [0, 33_000]),
        (0, [10, 0], [60_000, 13_200]),
        // No supply.
        (1, [10, 40], [100_000, 400_000]),
        (0, [10, 40], [100_000, 400_000]),
        // The queue is below the start flow.
        (1, [3, 20], [0, 209_900]),
        (0, [3, 20], [0, 209_900]),
    ] {
        let greens = Greens { now: 1, before };
        let next = next_queues(&certificate, greens, &amounts(&queues), &amounts(&[]), 1);
        assert_eq!(next, amounts(&due), "{before} {queues:?}");
    }
}

/// Each link by its own place in both signals.
#[test]
fn links_apart() {
    let certificate = sound(TWO_LINKS);
    let step = |now, before| {
        let greens = Greens { now, before };
        next_queues(&certificate, greens, &amounts(&[20, 20]), &amounts(&[]), 1)
    };
    // Link 0 sends 6.8 or 4, link 1 sends 10 or 1.
    assert_eq!(step(0b11, 0b11), amounts(&[132_000, 122_440]));
    assert_eq!(step(0b11, 0b01), amounts(&[132_000, 212_440]));
    assert_eq!(step(0b11, 0b10), amounts(&[160_000, 113_200]));
    assert_eq!(step(0b11, 0b00), amounts(&[160_000, 203_200]));
    assert_eq!(step(0b10, 0b01), amounts(&[200_000, 190_000]));
    assert_eq!(step(0b01, 0b10), amounts(&[160_000, 213_200]));
}
