//! Polls of loop detectors: refusals 16, 18, 19, 20 and 21, and the cell.

mod common;

use common::{crossing, l_with, L, L_TEXT};
use second::state::Answer;
use second::{Report, State};

const NOT_A_NUMBER: u64 = 0x7FF8_0000_0000_0000;
const SIGN: u64 = 1 << 63;

/// A detector that gives these 64 bits.
fn bits(bits: u64) -> Vec<u8> {
    let mut bytes = vec![0];
    bytes.extend(bits.to_be_bytes());
    bytes
}

/// A detector that gives this queue.
fn queue(queue: f64) -> Vec<u8> {
    bits(queue.to_bits())
}

/// A detector that reports a fault, with other bytes behind the code.
fn fault(code: u8) -> Vec<u8> {
    vec![1, code, 0, 255, 2, 0x7F, 0xF8, 0, 3]
}

/// A detector opened by this byte.
fn opened_by(byte: u8) -> Vec<u8> {
    vec![byte, 0, 0, 0, 0, 0, 0, 0, 0]
}

fn refused(number: u32, link: usize) -> Answer {
    Answer {
        report: Report::at(number, link),
        signal: 0,
        green: 0,
    }
}

fn shown(signal: u8, green: u8) -> Answer {
    Answer {
        report: Report::SUCCESS,
        signal,
        green,
    }
}

/// L with a signal for each cell, all of the same green byte.
fn told() -> State {
    let text = L_TEXT
        .replace("signal green 0\n", &"signal green 0\n".repeat(3))
        .replace("cell 1 mode 0 signal 0", "cell 1 mode 0 signal 1")
        .replace("cell 2 mode 0 signal 0", "cell 2 mode 0 signal 2");
    loaded(&common::bytes(&text))
}

fn loaded(bytes: &[u8]) -> State {
    let mut state = State::fresh();
    assert!(state.load(bytes).is_accepted());
    state
}

/// Polls, and sees that a refusal leaves the state as it was.
fn polled(state: &mut State, detectors: &[Vec<u8>]) -> Answer {
    let before = state.clone();
    let answer = state.poll(&detectors.concat());
    if answer.report.number != 0 {
        assert_eq!(*state, before);
    }
    answer
}

#[test]
fn the_larger_reading() {
    let mut state = told();
    for (one, other, cell) in [
        (5.0, 3.0, 1),
        (3.0, 5.0, 1),
        (0.0, 0.0, 0),
        (-0.0, 4.5, 0),
        (10.0, 10.0, 2),
        (7.75, 8.0, 2),
        (f64::MIN_POSITIVE, 7.75, 1),
    ] {
        let answer = polled(&mut state, &[queue(one), queue(other)]);
        assert_eq!(answer, shown(cell, 1), "{one} {other}");
    }
}

#[test]
fn one_step_around_each_edge() {
    let mut state = told();
    for (edge, below, at) in [(5.0f64, 0, 1), (8.0, 1, 2), (10.0, 2, 2)] {
        let edge = edge.to_bits();
        for (reading, cell) in [(edge - 1, below), (edge, at), (edge + 1, at)] {
            let due = match reading {
                0x4024_0000_0000_0001 => refused(20, 0),
                _ => shown(cell, 1),
            };
            let ahead = polled(&mut state, &[bits(reading), fault(0)]);
            assert_eq!(ahead, due, "{reading:016X}");
            assert_eq!(polled(&mut state, &[fault(255), bits(reading)]), due);
        }
    }
}

#[test]
fn small_amounts() {
    let mut state = told();
    for reading in [
        0,
        SIGN,
        1,
        5,
        0x000F_FFFF_FFFF_FFFF,
        0x0010_0000_0000_0000,
        0x0010_0000_0000_0001,
    ] {
        let answer = polled(&mut state, &[bits(reading), fault(1)]);
        assert_eq!(answer, shown(0, 1), "{reading:016X}");
    }
}

/// Beside a fault, and beside readings below and above all else that could be chosen.
#[test]
fn readings_that_are_no_queue() {
    let mut state = told();
    for reading in [
        NOT_A_NUMBER,
        NOT_A_NUMBER | SIGN,
        0x7FF0_0000_0000_0001,
        0xFFF0_0000_0000_0001,
        0x7FF0_0000_0000_0000,
        0xFFF0_0000_0000_0000,
        u64::MAX,
        0x7FEF_FFFF_FFFF_FFFF,
        0xFFEF_FFFF_FFFF_FFFF,
        1 | SIGN,
        0x4024_0000_0000_0001,
        0xC024_0000_0000_0000,
    ] {
        for other in [fault(0), queue(0.0), queue(10.0)] {
            for poll in [[bits(reading), other.clone()], [other, bits(reading)]] {
                let answer = polled(&mut state, &poll);
                assert_eq!(answer, refused(20, 0), "{reading:016X}");
            }
        }
    }
}

/// With readings over a power of two a poll tells what a query does.
#[test]
fn polls_as_queries() {
    let scale = 1 << 6;
    for bytes in [L.to_vec(), crossing()] {
        let mut polled = loaded(&bytes);
        let mut queried = polled.clone();
        let (links, cap) = if bytes == L { (1, 10) } else { (3, 40) };
        for whole in 0..=cap * scale {
            let queues = [whole, cap * scale - whole, whole / 2];
            let reading = |queue: u32| queue_over(queue, scale);
            let mut poll = Vec::new();
            for (link, &own) in queues[..links].iter().enumerate() {
                let lower = reading(own / 3);
                let pair = match link {
                    0 => [reading(own), lower],
                    _ => [lower, reading(own)],
                };
                poll.extend(pair.concat());
            }
            let due = queried.query(&queues[..links], scale);
            assert_eq!(polled.poll(&poll), due, "{queues:?}");
            assert_eq!(polled, queried);
        }
    }
}

fn queue_over(whole: u32, scale: u32) -> Vec<u8> {
    queue(f64::from(whole) / f64::from(scale))
}

#[test]
fn a_poll_passes_to_the_next_mode() {
    let mut state = loaded(&crossing());
    let poll: Vec<Vec<u8>> = vec![queue(40.0); 6];
    for (signal, green, mode) in [(0, 1, 1), (1, 6, 0), (0, 1, 1)] {
        assert_eq!(polled(&mut state, &poll), shown(signal, green));
        assert_eq!(state.mode, mode);
        assert_eq!(polled(&mut state, &vec![fault(9); 6]), refused(21, 0));
    }
}

/// 18, then 16 of any detector, then 20 before 21 link by link, then 19.
#[test]
fn order_of_the_tests() {
    let one = || queue(1.0);
    let none = || bits(NOT_A_NUMBER);
    let odd = || opened_by(2);
    let dead = || fault(7);
    let mut fresh = State::fresh();
    assert_eq!(polled(&mut fresh, &[odd()]), refused(18, 0));
    let mut state = loaded(&crossing());
    state.mode = 7;
    for (number, link, poll) in [
        (16, 0, [none(), none(), dead(), dead(), one(), odd()]),
        (16, 0, [odd(), none(), dead(), dead(), one(), one()]),
        (20, 0, [none(), dead(), dead(), dead(), none(), none()]),
        (21, 0, [dead(), dead(), none(), one(), one(), one()]),
        (20, 1, [one(), dead(), dead(), none(), dead(), dead()]),
        (21, 1, [one(), one(), dead(), dead(), none(), none()]),
        (20, 2, [dead(), one(), one(), dead(), one(), none()]),
        (21, 2, [dead(), one(), one(), dead(), dead(), dead()]),
        (19, 0, [dead(), one(), one(), dead(), one(), one()]),
    ] {
        assert_eq!(polled(&mut state, &poll), refused(number, link));
    }
}

#[test]
fn lengths() {
    let mut state = told();
    let whole = [queue(5.0), queue(3.0)].concat();
    for length in (0..60).filter(|&length| length != 18) {
        let mut poll = whole.repeat(4);
        poll.truncate(length);
        assert_eq!(state.poll(&poll), refused(16, 0), "{length}");
    }
    assert_eq!(state.poll(&whole), shown(1, 1));
    assert_eq!(State::fresh().poll(&whole[1..]), refused(18, 0));
}

#[test]
fn openings() {
    let mut state = told();
    for byte in 2..=255 {
        for poll in [[opened_by(byte), queue(1.0)], [fault(0), opened_by(byte)]] {
            assert_eq!(polled(&mut state, &poll), refused(16, 0), "{byte}");
        }
    }
}

#[test]
fn faults_of_any_code() {
    let mut state = told();
    for code in 0..=255 {
        let zeros = vec![1, code, 0, 0, 0, 0, 0, 0, 0];
        for broken in [fault(code), zeros] {
            let poll = [broken.clone(), queue(6.0)];
            assert_eq!(polled(&mut state, &poll), shown(1, 1));
            let poll = [broken, fault(0)];
            assert_eq!(polled(&mut state, &poll), refused(21, 0));
        }
    }
}

#[test]
fn no_entry_for_the_cell() {
    let third = "entry cell 2 mode 0 signal 0 next 0 rank 2\n";
    let mut state = loaded(&l_with(third, ""));
    let below = bits(8f64.to_bits() - 1);
    assert_eq!(
        polled(&mut state, &[queue(8.0), queue(1.0)]),
        refused(19, 0)
    );
    assert_eq!(polled(&mut state, &[below, queue(1.0)]), shown(0, 1));
}

#[test]
fn states_made_by_hand() {
    let poll = [queue(6.0), fault(0)];
    // Refused at 13 only: it holds a certificate all the same.
    let mut state = State::by_hand(&l_with("rank 1", "rank 0"), 66, 0);
    assert_eq!(polled(&mut state, &poll), shown(0, 1));
    for length in [0, 65, 67, State::CAPACITY, State::CAPACITY + 1, usize::MAX] {
        let mut state = State::by_hand(&L, length, 3);
        assert_eq!(polled(&mut state, &poll), refused(18, 0), "{length}");
    }
    for mode in [1, 7, 255] {
        let mut state = State::by_hand(&L, 66, mode);
        assert_eq!(polled(&mut state, &poll), refused(19, 0));
        assert_eq!(polled(&mut state, &[fault(0), fault(0)]), refused(21, 0));
    }
}
