//! Runs and calls of H3 certificates: goals are met in turn.

mod common;

use common::goals::{as_h2, goals, goals_with, CORRIDOR, GOALS_TEXT};
use common::run::{first_queues, passes, Moment, Run};
use common::{bytes, Numbers};
use second::certificate::Entry;
use second::conditions::read_sound;
use second::grid::cells;
use second::state::Answer;
use second::{judge, Certificate, Report, State};

/// Runs of so many steps from every listed cell and mode, and what each of them passed.
fn runs(certificate: &Certificate, steps: usize) -> Vec<usize> {
    let cells = cells(certificate);
    let mut numbers = Numbers(1);
    let firsts = certificate.entries.iter().cycle().take(400);
    firsts
        .map(|first| {
            let queues = first_queues(&cells[usize::from(first.cell)], &mut numbers);
            let run = Run::begin(certificate, &cells, queues, first.mode);
            let moments = run.moments(steps, &mut numbers);
            assert_eq!(moments.len(), steps + 1);
            passes(certificate, &moments)
        })
        .collect()
}

fn accepted(text: &str) -> Certificate {
    let bytes = bytes(text);
    assert!(judge(&bytes).is_accepted());
    read_sound(&bytes).unwrap()
}

#[test]
fn goals_are_met_in_turn() {
    // Ranks are at most 2, so that a number is passed on in every third step or sooner.
    let passed = runs(&accepted(GOALS_TEXT), 60);
    assert!(passed.iter().all(|&passed| (20..=60).contains(&passed)));
    // North and south: ranks are at most 1.
    let passed = runs(&accepted(CORRIDOR), 60);
    assert!(passed.iter().all(|&passed| (30..=60).contains(&passed)));
    assert!(passed.iter().any(|&passed| passed < 60));
}

/// Lists of no step and of one claim as far as they reach.
#[test]
fn short_lists() {
    let certificate = accepted(GOALS_TEXT);
    assert!(runs(&certificate, 0).iter().all(|&passed| passed == 0));
    assert!(runs(&certificate, 1).iter().all(|&passed| passed <= 1));
}

/// A moment in a mode of the corridor, by its rank and by which mode's goal is met.
fn moment(mode: u8, rank: u16, met: [bool; 2]) -> Moment {
    let entry = Entry {
        cell: 0,
        mode,
        signal: 0,
        next: 0,
        rank,
    };
    let met = met.to_vec();
    Moment { entry, met }
}

/// The checks of a run find what is not as document 02 says.
#[test]
fn faulty_runs_are_found() {
    let certificate = accepted(CORRIDOR);
    let (met, unmet) = ([true, true], [false, false]);
    let is_found = |moments: &[Moment]| {
        let check = || passes(&certificate, moments);
        std::panic::catch_unwind(check).is_err()
    };
    let falling = [moment(0, 2, unmet), moment(0, 1, unmet), moment(0, 0, met)];
    assert!(!is_found(&falling));
    assert!(!is_found(&falling[..2]));
    // Rank 1, and the goal is met two steps later.
    let late = [moment(0, 1, unmet), moment(0, 1, unmet), moment(0, 0, met)];
    assert!(is_found(&late));
    // The goal of the other mode is met.
    let other = [moment(0, 1, [false, true]), moment(0, 0, [false, true])];
    assert!(is_found(&other));
    // The number changes with rank 1, or stays with rank 0.
    assert!(is_found(&[moment(0, 1, met), moment(1, 0, met)]));
    assert!(is_found(&[moment(0, 0, met), moment(0, 0, met)]));
    assert!(is_found(&[moment(1, 0, met), moment(1, 0, met)]));
    let round = [1, 0, 1].map(|mode| moment(mode, 0, met));
    assert_eq!(passes(&certificate, &round), 2);
}

fn shown(signal: u8, green: u8) -> Answer {
    Answer {
        report: Report::SUCCESS,
        signal,
        green,
    }
}

fn refused(number: u32) -> Answer {
    Answer {
        report: Report::refusal(number),
        signal: 0,
        green: 0,
    }
}

#[test]
fn loads_queries_and_writes() {
    let mut state = State::fresh();
    assert!(state.load(&goals()).is_accepted());
    assert_eq!((state.mode, state.length), (0, 143));
    // From mode 0 to 2 after red, back to 0, and by the longer queue once more.
    for (queue, signal, mode) in [
        (4, 1, 2),
        (6, 0, 0),
        (9, 0, 0),
        (7, 0, 0),
        (0, 1, 2),
        (9, 0, 1),
    ] {
        assert_eq!(
            state.query(&[queue], 1),
            shown(signal, 1 - signal),
            "{queue}"
        );
        assert_eq!(state.mode, mode, "{queue}");
    }
    assert_eq!(state.query(&[11], 1), refused(16));
    let mut buffer = vec![7; 145];
    assert_eq!(state.write(&mut buffer, 1), Report::at(0, 143));
    assert_eq!(buffer[1..144], goals());
    let mut other = State::fresh();
    assert!(other.load(&buffer[1..144]).is_accepted());
    other.mode = 1;
    assert_eq!(other, state);
}

/// A refused load keeps a certificate of another kind.
#[test]
fn kinds_take_turns() {
    let h2 = bytes(&as_h2(GOALS_TEXT).replace("goal 3", "goal 5"));
    let mut state = State::fresh();
    assert!(state.load(&goals()).is_accepted());
    let before = state.clone();
    // In H2 cell 1 is not in the goal in mode 1 either.
    assert_eq!(state.load(&h2).report.number, 13);
    assert_eq!(state, before);
    assert!(state.load(&common::start()).is_accepted());
    assert_eq!(state.length, 107);
    assert_eq!(
        state.load(&goals_with("goals 5", "goals 4")).report.number,
        13
    );
    assert_eq!(state.length, 107);
    assert!(state.load(&goals()).is_accepted());
    assert_eq!(state, before);
}

/// Tests of reading decide whether a state made by hand holds a certificate; judging does not.
#[test]
fn states_made_by_hand() {
    for (number, faulty) in [
        (6, goals_with("goals 5", "goals 11")),
        (6, goals_with("goal 0 goals 5", "goal 8 goals 5")),
        (6, goals_with("goal 0 goals 5", "goal 1 goals 5")),
        (6, goals_with("goal 0 goals 5", "goal 2 goals 5")),
        (24, goals_with("next 0 rank 2", "next 0 rank 0")),
        (24, goals_with("next 2 rank 0", "next 2 rank 1")),
    ] {
        let mut state = State::by_hand(&faulty, 143, 0);
        let before = state.clone();
        assert_eq!(state.load(&faulty).report.number, number);
        assert_eq!(state.query(&[9], 1), refused(18));
        assert_eq!(state.poll(&[0; 18]), refused(18));
        let mut buffer = [7; 143];
        assert_eq!(state.write(&mut buffer, 0), Report::refusal(18));
        assert_eq!(buffer, [7; 143]);
        assert_eq!(state, before);
    }
    let outside = goals_with("goals 5", "goals 4");
    let mut state = State::by_hand(&outside, 143, 0);
    assert_eq!(state.poll(&[0; 18]), shown(1, 0));
    assert_eq!(state.mode, 2);
    for length in [0, 142, 144, State::CAPACITY, State::CAPACITY + 1] {
        let mut state = State::by_hand(&goals(), length, 0);
        assert_eq!(state.query(&[9], 1), refused(18), "{length}");
    }
}
