//! Calls of the library, ready to be made.

use super::sample::{Asked, Sample, SCALE};
use crate::library::{self, COMPARISON_SIZE, REPORT_SIZE, SHOWN_SIZE, STATE_SIZE, VERDICT_SIZE};
use crate::sides::{report_numbers, verdict_numbers};
use crate::{fast, peer, roadside};
use second::{Comparison, Report};
use std::hint::black_box;

/// Room for every listing.
pub const LISTING: usize = 131_072;
/// Where a write starts.
pub const START: usize = 50;

#[derive(Clone, Copy, Debug, PartialEq, Eq)]
pub enum Call {
    Screen,
    Judge,
    Load,
    Query(Asked),
    Poll(Asked),
    Write,
    List,
    Compare,
}

impl Call {
    const ALL: [Call; 10] = [
        Call::Screen,
        Call::Judge,
        Call::Load,
        Call::Query(Asked::First),
        Call::Query(Asked::Last),
        Call::Poll(Asked::First),
        Call::Poll(Asked::Last),
        Call::Write,
        Call::List,
        Call::Compare,
    ];

    /// The call's name, and which cell a query or a poll asks for.
    pub fn names(self) -> (&'static str, &'static str) {
        match self {
            Call::Screen => ("screen", ""),
            Call::Judge => ("judge", ""),
            Call::Load => ("load", ""),
            Call::Query(Asked::First) => ("query", "first"),
            Call::Query(Asked::Last) => ("query", "last"),
            Call::Poll(Asked::First) => ("poll", "first"),
            Call::Poll(Asked::Last) => ("poll", "last"),
            Call::Write => ("write", ""),
            Call::List => ("list", ""),
            Call::Compare => ("compare", ""),
        }
    }

    /// The call by its name; `query-first` and `query-last` for the two queries, and so for polls.
    pub fn named(name: &str) -> Result<Call, String> {
        let is_named = |call: &Call| match call.names() {
            (call, "") => call == name,
            (call, asked) => name.strip_prefix(call) == Some(&format!("-{asked}")),
        };
        let call = Call::ALL.into_iter().find(is_named);
        call.ok_or(format!("{name}: no such call"))
    }
}

/// The bytes of a fresh state, by the library.
fn fresh_state() -> Vec<u8> {
    let mut state = vec![0; STATE_SIZE];
    library::fresh(&mut state);
    state
}

/// Which is better, as the library tells it.
fn better_number(comparison: Comparison) -> u32 {
    match comparison {
        Comparison::Refused(_) => 0,
        Comparison::Equal => 1,
        Comparison::First => 2,
        Comparison::Second => 3,
        Comparison::Neither => 4,
    }
}

/// A call, the slices it is lent, and what it leaves there.
pub struct Ready<'a> {
    call: Call,
    sample: &'a Sample,
    /// The second certificate of a comparison.
    rival: Vec<u8>,
    queues: Vec<u32>,
    poll: Vec<u8>,
    state: Vec<u8>,
    buffer: Vec<u8>,
    shown: [u32; SHOWN_SIZE],
}

impl<'a> Ready<'a> {
    pub fn of(call: Call, sample: &'a Sample) -> Result<Ready<'a>, String> {
        let mut ready = Ready {
            call,
            sample,
            rival: Vec::new(),
            queues: Vec::new(),
            poll: Vec::new(),
            state: sample.state.clone(),
            buffer: vec![0; LISTING],
            shown: [0; SHOWN_SIZE],
        };
        match call {
            Call::Load => ready.state = fresh_state(),
            Call::Query(asked) => ready.queues = sample.queues(asked),
            Call::Poll(asked) => ready.poll = sample.poll(asked),
            Call::Compare => ready.rival = sample.rival()?.bytes,
            Call::Screen | Call::Judge | Call::Write | Call::List => (),
        }
        Ok(ready)
    }

    /// Makes the call once.
    #[inline]
    pub fn make(&mut self) {
        let bytes = black_box(&self.sample.bytes[..]);
        let state = black_box(&mut self.state[..]);
        let buffer = black_box(&mut self.buffer[..]);
        let shown = &mut self.shown;
        black_box(match self.call {
            Call::Screen => library::screen(bytes, &mut shown[..REPORT_SIZE]),
            Call::Judge => library::judge(bytes, &mut shown[..VERDICT_SIZE]),
            Call::Load => library::load(state, bytes, &mut shown[..VERDICT_SIZE]),
            Call::Query(_) => library::query(state, &self.queues, SCALE, shown),
            Call::Poll(_) => {
                self.shown = roadside::unpacked(roadside::poll(state, black_box(&self.poll)));
                self.shown[0]
            }
            Call::Write => library::write(state, buffer, START, &mut shown[..REPORT_SIZE]),
            Call::List => library::list(bytes, buffer, &mut shown[..REPORT_SIZE]),
            Call::Compare => {
                let rival = black_box(&self.rival[..]);
                library::compare(bytes, rival, &mut shown[..COMPARISON_SIZE])
            }
        });
    }

    /// The numbers that the call has put down.
    pub fn shown(&self) -> &[u32] {
        match self.call {
            Call::Query(_) | Call::Poll(_) => &self.shown,
            Call::Judge | Call::Load => &self.shown[..VERDICT_SIZE],
            Call::Compare => &self.shown[..COMPARISON_SIZE],
            Call::Screen | Call::Write | Call::List => &self.shown[..REPORT_SIZE],
        }
    }

    /// What the call must leave: verdicts by the plain checkers, a comparison as the rival is made, the rest by the
    /// second checker and the sample. The state holds the sample in mode 0 after every call, so it is the same for
    /// each.
    pub fn due(&self) -> Result<Ready<'a>, String> {
        let mut due = Ready::of(self.call, self.sample)?;
        due.state.clone_from(&self.sample.state);
        let bytes = &self.sample.bytes;
        let report = match self.call {
            Call::Screen => fast::screen(bytes),
            Call::Judge | Call::Load => due.verdict(),
            Call::Query(_) | Call::Poll(_) => due.answer(),
            Call::Write => {
                due.buffer[START..][..bytes.len()].copy_from_slice(bytes);
                Report::at(0, bytes.len())
            }
            Call::List => match peer::listing(bytes, &mut due.buffer) {
                Some(length) => Report::at(0, length),
                None => Report::refusal(17),
            },
            Call::Compare => {
                let comparison = self.sample.rival()?.due;
                due.shown[REPORT_SIZE] = better_number(comparison);
                comparison.report()
            }
        };
        due.shown[..REPORT_SIZE].copy_from_slice(&report_numbers(report));
        Ok(due)
    }

    /// Puts down how many entries may overflow.
    fn verdict(&mut self) -> Report {
        let verdict = fast::judge(&self.sample.bytes);
        self.shown[..VERDICT_SIZE].copy_from_slice(&verdict_numbers(verdict));
        verdict.report
    }

    /// Puts down the second checker's signal and green byte.
    fn answer(&mut self) -> Report {
        let mut state = self.sample.second_state();
        let answer = match self.call {
            Call::Poll(_) => state.poll(&self.poll),
            _ => state.query(&self.queues, SCALE),
        };
        self.shown[REPORT_SIZE] = answer.signal.into();
        self.shown[REPORT_SIZE + 1] = answer.green.into();
        answer.report
    }

    /// The call must have succeeded, and have left what is due.
    pub fn check(&self) -> Result<(), String> {
        let due = self.due()?;
        let (name, sample) = (self.call.names().0, self.sample.name);
        let differs = |what: String| Err(format!("{name} {sample}: {what}"));
        if self.shown() != due.shown() || self.shown[0] != 0 {
            return differs(format!("due {:?}, got {:?}", due.shown(), self.shown()));
        }
        if self.state != due.state {
            return differs("the state is not the due one".into());
        }
        if self.buffer != due.buffer {
            return differs("the buffer is not the due one".into());
        }
        Ok(())
    }
}
