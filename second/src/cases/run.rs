//! Running stored cases against this checker.

use super::call::Call;
use super::due::{Due, Shown};
use super::folder::{read_folder, Paired, Ready};
use super::stored::Certificates;
use crate::comparing::compare;
use crate::listing::listing;
use crate::report::{Report, Verdict};
use crate::state::{Answer, State};
use std::path::Path;

/// What came of a folder of cases.
#[derive(Clone, Debug, Default)]
pub struct Outcome {
    pub cases: usize,
    /// Calls that have a due result.
    pub calls: usize,
    /// One text for each call that did not agree with it.
    pub mismatches: Vec<String>,
}

impl Outcome {
    pub fn agreed(&self) -> usize {
        self.calls - self.mismatches.len()
    }
}

/// Runs all cases of a folder. A malformed file, or a folder without any case, is an error.
pub fn run(folder: &Path) -> Result<Outcome, String> {
    let read = read_folder(folder)?;
    let mut outcome = Outcome::default();
    for case in &read.cases {
        run_case(case, &read.certificates, &mut outcome);
        outcome.cases += 1;
    }
    Ok(outcome)
}

fn run_case(case: &Ready, certificates: &Certificates, outcome: &mut Outcome) {
    let mut state = State::fresh();
    for Paired { call, due } in &case.calls {
        let got = make(&mut state, &call.said, certificates);
        let (Some(due), Some(got)) = (due, got) else {
            continue;
        };
        outcome.calls += 1;
        if !agrees(due, &got, certificates) {
            outcome.mismatches.push(format!(
                "{}:{}: case {}: {}\n  due {due}\n  got {}",
                case.file,
                call.line,
                case.name,
                call.text,
                shown(&got)
            ));
        }
    }
}

/// What a call gave. A write shows the whole buffer, the other calls take the form of due results.
enum Got {
    Told(Due),
    Written { report: Report, buffer: Vec<u8> },
}

/// The bytes of a lent buffer before the call.
fn lent_buffer(size: usize) -> Vec<u8> {
    (0..size).map(|i| ((i % 256 * 7 + 3) % 256) as u8).collect()
}

/// The bytes of a certificate whose name is known to be there.
fn bytes<'a>(certificates: &'a Certificates, name: &str) -> &'a [u8] {
    &certificates[name].bytes
}

/// Makes one call; `fresh` and `state` give no result.
fn make(state: &mut State, call: &Call, certificates: &Certificates) -> Option<Got> {
    match call {
        Call::Fresh => {
            *state = State::fresh();
            None
        }
        Call::State { name, length, mode } => {
            let stored = bytes(certificates, name);
            *state = State::by_hand(stored, length.unwrap_or(stored.len()), *mode);
            None
        }
        Call::Load { name } => {
            let verdict = state.load(bytes(certificates, name));
            Some(Got::Told(loaded(verdict, state)))
        }
        Call::Query { scale, queues } => {
            let answer = state.query(queues, *scale);
            Some(Got::Told(Due::Query(shown_by(answer, state))))
        }
        Call::Poll { bytes } => {
            let answer = state.poll(bytes);
            Some(Got::Told(Due::Poll(shown_by(answer, state))))
        }
        Call::Write { buffer, start } => {
            let mut buffer = lent_buffer(*buffer);
            let report = state.write(&mut buffer, *start);
            Some(Got::Written { report, buffer })
        }
        Call::List { name } => {
            let (text, _) = listing(bytes(certificates, name));
            Some(Got::Told(Due::List { text }))
        }
        Call::Compare { first, second } => {
            let answer = compare(bytes(certificates, first), bytes(certificates, second));
            let (report, word) = (answer.report(), answer.word());
            Some(Got::Told(Due::Compare { report, word }))
        }
    }
}

/// A verdict, and what the state holds after it.
fn loaded(verdict: Verdict, state: &State) -> Due {
    Due::Load {
        verdict,
        mode: state.mode,
        length: state.length,
    }
}

/// An answer, and the mode that the state is left in.
fn shown_by(answer: Answer, state: &State) -> Shown {
    Shown {
        report: answer.report,
        signal: answer.signal,
        green: answer.green,
        mode: state.mode,
    }
}

fn agrees(due: &Due, got: &Got, certificates: &Certificates) -> bool {
    match (due, got) {
        (
            Due::Write { report, holds },
            Got::Written {
                report: own,
                buffer,
            },
        ) => {
            report == own && due_buffer(holds, buffer.len(), certificates).as_ref() == Some(buffer)
        }
        (due, Got::Told(own)) => due == own,
        _ => false,
    }
}

/// The buffer as it must be after a write; none if the due certificate does not fit in it.
pub(super) fn due_buffer(
    holds: &Option<(String, usize)>,
    size: usize,
    certificates: &Certificates,
) -> Option<Vec<u8>> {
    let mut buffer = lent_buffer(size);
    if let Some((name, start)) = holds {
        let written = bytes(certificates, name);
        let part = buffer.get_mut(*start..)?.get_mut(..written.len())?;
        part.copy_from_slice(written);
    }
    Some(buffer)
}

/// What a call gave, for a reader.
fn shown(got: &Got) -> String {
    let (report, buffer) = match got {
        Got::Told(told) => return told.to_string(),
        Got::Written { report, buffer } => (report, buffer),
    };
    let before = lent_buffer(buffer.len());
    let changed = |i: &usize| buffer[*i] != before[*i];
    let first = (0..buffer.len()).find(changed);
    let last = (0..buffer.len()).rfind(changed);
    match (first, last) {
        (Some(first), Some(last)) => {
            format!("write {report}, bytes {first} to {last} of the buffer changed")
        }
        _ => format!("write {report} kept"),
    }
}
