//! Load, query and write, with refusals 16 to 19, and states made by hand.

mod common;

use common::{crossing, l_with, L};
use second::state::Answer;
use second::{Report, State};

fn loaded(bytes: &[u8]) -> State {
    let mut state = State::fresh();
    assert!(state.load(bytes).is_accepted());
    state
}

fn refused(number: u32) -> Answer {
    Answer {
        report: Report::refusal(number),
        signal: 0,
        green: 0,
    }
}

#[test]
fn a_fresh_state_holds_no_certificate() {
    let mut state = State::fresh();
    assert_eq!((state.length, state.mode), (0, 0));
    assert_eq!(state.query(&[0], 0), refused(18));
    let mut buffer = [7; 4];
    assert_eq!(state.write(&mut buffer, 9), Report::refusal(18));
    assert_eq!(buffer, [7; 4]);
    assert_eq!(state, State::fresh());
}

#[test]
fn a_refused_load_changes_nothing() {
    let mut state = loaded(&crossing());
    state.query(&[0, 0, 0], 1);
    assert_eq!(state.mode, 1);
    let before = state.clone();
    let verdict = state.load(&l_with("rank 1", "rank 0"));
    assert_eq!(verdict.report.number, 13);
    assert_eq!(state, before);
    assert!(state.load(&L).is_accepted());
    assert_eq!((state.mode, state.length), (0, 66));
    assert!(state.stored[66..].iter().all(|&byte| byte == 0));
}

#[test]
fn a_query_passes_to_the_next_mode() {
    let mut state = loaded(&crossing());
    for (signal, green, mode) in [(0, 1, 1), (1, 6, 0), (0, 1, 1)] {
        let due = Answer {
            report: Report::SUCCESS,
            signal,
            green,
        };
        assert_eq!(state.query(&[80, 80, 80], 2), due);
        assert_eq!(state.mode, mode);
    }
}

#[test]
fn a_query_that_does_not_fit() {
    let mut state = loaded(&crossing());
    for (queues, scale) in [
        (&[0, 0, 0][..], 0),
        (&[0, 0, 0], 100_001),
        (&[0, 0, 0], u32::MAX),
        (&[], 1),
        (&[0, 0], 1),
        (&[0, 0, 0, 0], 1),
        (&[41, 0, 0], 1),
        (&[0, 0, 4_000_001], 100_000),
        (&[u32::MAX, 0, 0], 100_000),
    ] {
        assert_eq!(
            state.query(queues, scale),
            refused(16),
            "{queues:?} {scale}"
        );
    }
    assert_eq!(state.query(&[0, 0, 4_000_000], 100_000).report.number, 0);
}

#[test]
fn no_entry_for_the_cell() {
    let third = "entry cell 2 mode 0 signal 0 next 0 rank 2\n";
    let mut state = loaded(&l_with(third, ""));
    let before = state.clone();
    assert_eq!(state.query(&[8], 1), refused(19));
    assert_eq!(state, before);
    assert_eq!(state.query(&[799_999], 100_000).report.number, 0);
}

#[test]
fn writing_from_a_start() {
    let state = loaded(&L);
    let before: Vec<u8> = (0..100).collect();
    for start in [0, 17, 34] {
        let mut buffer = before.clone();
        assert_eq!(state.write(&mut buffer, start), Report::at(0, 66));
        let mut due = before.clone();
        due[start..start + 66].copy_from_slice(&L);
        assert_eq!(buffer, due);
    }
    for start in [35, 99, 100, 101, usize::MAX] {
        let mut buffer = before.clone();
        assert_eq!(state.write(&mut buffer, start), Report::refusal(17));
        assert_eq!(buffer, before);
    }
    assert_eq!(state.write(&mut [], 0), Report::refusal(17));
}

#[test]
fn what_is_written_is_accepted_again() {
    let state = loaded(&crossing());
    let mut buffer = vec![0; 300];
    let report = state.write(&mut buffer, 5);
    let length = report.a as usize;
    assert_eq!(buffer[5..5 + length], crossing());
    assert_eq!(loaded(&buffer[5..5 + length]), state);
}

/// 9 and 22 are tests before 12: stored bytes that fail one are no certificate.
#[test]
fn entries_of_states_made_by_hand() {
    let line = "entry cell 1 mode 0 signal 0";
    for (number, other) in [
        (9, "entry cell 3 mode 0 signal 0"),
        (9, "entry cell 1 mode 0 signal 1"),
        (22, "entry cell 0 mode 0 signal 0"),
        (9, "entry cell 0 mode 0 signal 1"),
    ] {
        let faulty = l_with(line, other);
        let mut state = State::by_hand(&faulty, 66, 0);
        let before = state.clone();
        assert_eq!(state.load(&faulty).report, Report::at(number, 46));
        assert_eq!(state.query(&[6], 1), refused(18));
        assert_eq!(state.poll(&[0; 18]), refused(18));
        assert_eq!(state.query(&[11], 0), refused(18));
        let mut buffer = [7; 66];
        assert_eq!(state.write(&mut buffer, 0), Report::refusal(18));
        assert_eq!(buffer, [7; 66]);
        assert_eq!(state, before);
    }
}

#[test]
fn states_made_by_hand() {
    // Refused at 13 only: it holds a certificate all the same.
    let unjudged = l_with("rank 1", "rank 0");
    let mut state = State::by_hand(&unjudged, 66, 0);
    assert_eq!(state.query(&[6], 1).report, Report::SUCCESS);
    assert_eq!(state.write(&mut [0; 66], 0), Report::at(0, 66));
    for length in [0, 65, 67, State::CAPACITY, State::CAPACITY + 1, usize::MAX] {
        let mut state = State::by_hand(&L, length, 0);
        assert_eq!(state.query(&[6], 1), refused(18), "{length}");
        assert_eq!(state.write(&mut [0; 66], 0), Report::refusal(18));
    }
    for mode in [1, 8, 255] {
        let mut state = State::by_hand(&L, 66, mode);
        assert_eq!(state.query(&[11], 1), refused(16));
        assert_eq!(state.query(&[6], 1), refused(19));
        assert_eq!(state.mode, mode);
        assert_eq!(state.write(&mut [0; 66], 0), Report::at(0, 66));
    }
}
