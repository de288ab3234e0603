//! Runs and calls of H2 certificates: each step by the signal last shown, which the mode remembers.

mod common;

use common::run::{first_queues, Run};
use common::{as_hd, bytes, start, start_with, Numbers, START_TEXT};
use second::certificate::Greens;
use second::conditions::read_sound;
use second::flow::{next_queues, FINER};
use second::grid::cells;
use second::state::Answer;
use second::{judge, Report, State};

/// Runs of five steps from every listed cell and mode keep what an acceptance says: the cell is listed, queues are
/// safe, ranks fall until the goal is met. Tells how many steps followed another signal than their own.
fn runs(text: &str) -> usize {
    let bytes = bytes(text);
    assert!(judge(&bytes).is_accepted());
    let certificate = read_sound(&bytes).unwrap();
    let cells = cells(&certificate);
    let mut numbers = Numbers(1);
    let mut changes = 0;
    for first in certificate.entries.iter().cycle().take(600) {
        let queues = first_queues(&cells[usize::from(first.cell)], &mut numbers);
        let mut run = Run::begin(&certificate, &cells, queues, first.mode);
        let mut least = u32::MAX;
        for _ in 0..5 {
            let entry = run.entry().expect("an entry in force").clone();
            assert_eq!(run.shown, certificate.memory[usize::from(run.mode)]);
            assert!(run.keeps_to(certificate.links.iter().map(|link| link.safe)));
            let goal = run.keeps_to(certificate.links.iter().map(|link| link.goal));
            assert!(goal || entry.rank > 0 && u32::from(entry.rank) < least);
            least = if goal { u32::MAX } else { entry.rank.into() };
            changes += usize::from(run.shown != entry.signal);
            run.step(&entry, &mut numbers);
        }
    }
    changes
}

#[test]
fn runs_of_the_hand_worked_certificate() {
    // Mode 1 is left at once and never comes back: one step a run from its entry.
    assert_eq!(runs(START_TEXT), 100);
    runs(&START_TEXT.replace("start 2", "start 1"));
    runs(&START_TEXT.replace("start 2", "start 3"));
}

/// Two links into a junction that get green in turn, one step each, and turn into a third.
const IN_TURN: &str = "\
header kind H2
link tail 0 head 1 cap 40 flow 12 safe 40 goal 40 start 7
link tail 0 head 1 cap 40 flow 12 safe 40 goal 40 start 5
link tail 1 head 2 cap 60 flow 20 safe 60 goal 60 start 20
turn from 0 to 2 share 70 pull 50
turn from 1 to 2 share 90 pull 40
signal green 0 2
signal green 1 2
mode signal 1
mode signal 0
grid 13
grid 7 20
grid 30
arrivals 0-3 0-2 0-0
arrivals 1-4 2-2 0-5
entry cell 0..11 mode 0..1 signal 0 next 1 rank 0
end
";

#[test]
fn runs_with_signals_in_turn() {
    // Mode 0 shows signal 0 after 1, mode 1 shows signal 1 after 0.
    let mut text = String::new();
    for cell in 0..12 {
        for mode in 0..2 {
            let next = 1 - mode;
            text += &format!("entry cell {cell} mode {mode} signal {mode} next {next} rank 0\n");
        }
    }
    let all = "entry cell 0..11 mode 0..1 signal 0 next 1 rank 0\n";
    assert!(IN_TURN.contains(all));
    assert_eq!(runs(&IN_TURN.replace(all, &text)), 600 * 5);
}

/// By full flow a run leaves the listed cells; by the start flow it does not.
#[test]
fn a_run_that_full_flow_would_lose() {
    let certificate = read_sound(&start()).unwrap();
    let cells = cells(&certificate);
    let mut run = Run {
        certificate: &certificate,
        cells: &cells,
        queues: [9, 0, 0, 0, 0, 0, 0, 0],
        scale: 1,
        mode: 1,
        shown: 1,
    };
    let step = |before| {
        let greens = Greens { now: 1, before };
        next_queues(&certificate, greens, &run.queues, &[0; 8], 1)
    };
    let (by_start, by_flow) = (step(0), step(1));
    assert_eq!((by_start[0], by_flow[0]), (7 * FINER, 3 * FINER));
    (run.scale, run.mode) = (FINER, 2);
    run.queues = by_start;
    assert_eq!(run.entry().map(|entry| entry.cell), Some(1));
    run.queues = by_flow;
    assert_eq!(run.entry(), None);
}

fn shown(signal: u8, green: u8) -> Answer {
    Answer {
        report: Report::SUCCESS,
        signal,
        green,
    }
}

fn refused(number: u32) -> Answer {
    Answer {
        report: Report::refusal(number),
        signal: 0,
        green: 0,
    }
}

/// A poll whose detectors both give this queue.
fn poll(queue: f64) -> Vec<u8> {
    let mut detector = vec![0];
    detector.extend(queue.to_be_bytes());
    detector.repeat(2)
}

#[test]
fn loads_queries_polls_and_writes() {
    let mut state = State::fresh();
    assert!(state.load(&start()).is_accepted());
    assert_eq!((state.mode, state.length), (0, 107));
    assert_eq!(state.query(&[19], 2), shown(0, 1));
    assert_eq!(state.mode, 0);
    assert_eq!(state.query(&[11], 1), refused(16));
    state.mode = 1;
    assert_eq!(state.query(&[5], 1), refused(19));
    assert_eq!(state.query(&[9], 1), shown(0, 1));
    assert_eq!(state.mode, 2);
    assert_eq!(state.query(&[4], 1), refused(19));
    assert_eq!(state.poll(&poll(4.0)), refused(19));
    assert_eq!(state.poll(&poll(7.5)), shown(0, 1));
    assert_eq!(state.mode, 0);
    let mut buffer = vec![7; 110];
    assert_eq!(state.write(&mut buffer, 2), Report::at(0, 107));
    assert_eq!(buffer[2..109], start());
    assert_eq!((buffer[1], buffer[109]), (7, 7));
    let mut other = State::fresh();
    assert!(other.load(&buffer[2..109]).is_accepted());
    assert_eq!(other, state);
}

/// A refused H2 load keeps an HD certificate, and the reverse.
#[test]
fn kinds_take_turns() {
    let hd = bytes(&as_hd(START_TEXT).replace("next 2 rank 3", "next 0 rank 3"));
    let mut state = State::fresh();
    assert!(state.load(&hd).is_accepted());
    let before = state.clone();
    let slow = start_with("start 2", "start 4");
    assert_eq!(state.load(&slow).report.number, 14);
    assert_eq!(state, before);
    assert!(state.load(&start()).is_accepted());
    assert_eq!(state.stored[..107], start());
    assert!(state.load(&hd).is_accepted());
    assert_eq!((state.length, &state.stored[..96]), (96, &hd[..]));
    assert!(state.stored[96..].iter().all(|&byte| byte == 0));
}

/// Tests of reading decide whether a state made by hand holds a certificate; judging does not.
#[test]
fn states_made_by_hand() {
    for (number, faulty) in [
        (4, start_with("start 2", "start 7")),
        (6, start_with("mode signal 1", "mode signal 2")),
        (
            23,
            start_with("signal 0 next 2 rank 3", "signal 1 next 2 rank 3"),
        ),
        (
            23,
            start_with("signal 0 next 2 rank 3", "signal 0 next 1 rank 3"),
        ),
    ] {
        let mut state = State::by_hand(&faulty, 107, 0);
        let before = state.clone();
        assert_eq!(state.load(&faulty).report.number, number);
        assert_eq!(state.query(&[9], 1), refused(18));
        assert_eq!(state.query(&[], 0), refused(18));
        assert_eq!(state.poll(&poll(9.0)), refused(18));
        let mut buffer = [7; 107];
        assert_eq!(state.write(&mut buffer, 0), Report::refusal(18));
        assert_eq!(buffer, [7; 107]);
        assert_eq!(state, before);
    }
    let unlisted = start_with("start 2", "start 4");
    let mut state = State::by_hand(&unlisted, 107, 1);
    assert_eq!(state.query(&[10], 1), shown(0, 1));
    assert_eq!(state.mode, 2);
    for length in [0, 106, 108, State::CAPACITY, State::CAPACITY + 1] {
        let mut state = State::by_hand(&start(), length, 0);
        assert_eq!(state.query(&[9], 1), refused(18), "{length}");
    }
}
