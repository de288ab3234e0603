//! What is timed beside the library's calls: the least that plain Rust does for the same result. Beside a comparison
//! also the library's own verdicts.

use super::calls::{Call, LISTING, START};
use super::sample::Sample;
use crate::library::{self, STATE_SIZE, VERDICT_SIZE};
use crate::sides::verdict_numbers;
use crate::{fast, peer};
use second::{Comparison, Report, Verdict};
use std::hint::black_box;

/// What the last run has found, of calls that need it.
#[derive(Clone, Copy, Debug, PartialEq, Eq)]
enum Found {
    Nothing,
    Verdict(Verdict),
    Comparison(Comparison),
    /// The library's numbers for both certificates of a comparison.
    Verdicts([[u32; VERDICT_SIZE]; 2]),
}

/// Plain Rust for a call, and the slices it fills.
pub struct Beside<'a> {
    call: Call,
    sample: &'a Sample,
    /// The second certificate of a comparison.
    rival: Vec<u8>,
    poll: Vec<u8>,
    state: Vec<u8>,
    back: Vec<u8>,
    buffer: Vec<u8>,
    found: Found,
}

impl<'a> Beside<'a> {
    pub fn of(call: Call, sample: &'a Sample) -> Result<Beside<'a>, String> {
        let mut beside = Beside {
            call,
            sample,
            rival: Vec::new(),
            poll: Vec::new(),
            state: sample.state.clone(),
            back: vec![0; STATE_SIZE],
            buffer: vec![0; LISTING],
            found: Found::Nothing,
        };
        match call {
            Call::Poll(asked) => beside.poll = sample.poll(asked),
            Call::Compare => beside.rival = sample.rival()?.bytes,
            _ => (),
        }
        Ok(beside)
    }

    /// By the peer, which judges by the library's method.
    #[inline]
    pub fn make(&mut self) {
        let bytes = black_box(&self.sample.bytes[..]);
        match self.call {
            Call::Screen => self.screen(),
            Call::Judge => self.found = Found::Verdict(peer::judge(bytes)),
            Call::Load => {
                self.found = Found::Verdict(peer::judge(bytes));
                self.copy_state();
            }
            Call::Query(_) => {
                self.screen();
                self.copy_state();
                black_box(&mut self.back).copy_from_slice(black_box(&self.state));
            }
            Call::Poll(_) => {
                self.copy_state();
                self.poll();
                black_box(&mut self.back).copy_from_slice(black_box(&self.state));
            }
            Call::Write => {
                self.screen();
                self.copy_state();
                self.copy_certificate();
            }
            Call::List => {
                black_box(peer::listing(bytes, black_box(&mut self.buffer)));
            }
            Call::Compare => {
                let comparison = peer::compare(bytes, black_box(&self.rival));
                self.found = Found::Comparison(comparison);
            }
        }
    }

    /// Verdicts by the checker of another method; a poll where the state stands; a write as a bare copy; the library's
    /// verdicts on both certificates of a comparison. Nothing for other calls.
    #[inline]
    pub fn make_other(&mut self) {
        let bytes = black_box(&self.sample.bytes[..]);
        match self.call {
            Call::Judge => self.found = Found::Verdict(fast::judge(bytes)),
            Call::Load => {
                self.found = Found::Verdict(fast::judge(bytes));
                self.copy_state();
            }
            Call::Poll(_) => self.poll(),
            Call::Write => self.copy_certificate(),
            Call::Compare => self.judge_both(),
            Call::Screen | Call::Query(_) | Call::List => (),
        }
    }

    fn poll(&mut self) {
        let answer = peer::poll(black_box(&mut self.state), black_box(&self.poll));
        self.report(black_box(answer).report);
    }

    /// A report tells of no entries.
    fn report(&mut self, report: Report) {
        let overflows = 0;
        self.found = Found::Verdict(Verdict { report, overflows });
    }

    fn judge_both(&mut self) {
        let mut verdicts = [[0; VERDICT_SIZE]; 2];
        for (bytes, verdict) in self.both().into_iter().zip(&mut verdicts) {
            black_box(library::judge(black_box(bytes), verdict));
        }
        self.found = Found::Verdicts(black_box(verdicts));
    }

    /// The certificates of a comparison.
    fn both(&self) -> [&[u8]; 2] {
        [&self.sample.bytes, &self.rival]
    }

    /// One pass of the tests before 12.
    fn screen(&mut self) {
        let report = fast::screen(black_box(&self.sample.bytes));
        self.report(report);
    }

    fn copy_state(&mut self) {
        black_box(&mut self.state).copy_from_slice(black_box(&self.sample.state));
    }

    fn copy_certificate(&mut self) {
        let bytes = black_box(&self.sample.bytes[..]);
        black_box(&mut self.buffer)[START..][..bytes.len()].copy_from_slice(bytes);
    }

    /// Lookups of all verdicts that the call gives.
    pub fn lookups(&self) -> u64 {
        let count = |bytes: &[u8]| fast::judge(bytes).report.count;
        match self.call {
            Call::Judge | Call::Load | Call::List => count(&self.sample.bytes),
            Call::Compare => self.both().map(count).iter().sum(),
            Call::Screen | Call::Query(_) | Call::Poll(_) | Call::Write => 0,
        }
    }

    /// What has been found must be the due: verdicts by the checker of another method, and a comparison as the rival is
    /// made. That the call's own verdicts are acceptances is seen by `Ready::check`.
    pub fn check(&self) -> Result<(), String> {
        let due = match (self.found, self.call) {
            (Found::Nothing, _) => Found::Nothing,
            (Found::Verdict(_), Call::Judge | Call::Load) => {
                Found::Verdict(fast::judge(&self.sample.bytes))
            }
            (Found::Verdict(_), _) => Found::Verdict(Verdict::accepted(0, 0)),
            (Found::Comparison(_), _) => Found::Comparison(self.sample.rival()?.due),
            (Found::Verdicts(_), _) => {
                let numbers = |bytes: &[u8]| verdict_numbers(fast::judge(bytes));
                Found::Verdicts(self.both().map(numbers))
            }
        };
        if self.found != due {
            let (name, call, found) = (self.sample.name, self.call, self.found);
            return Err(format!(
                "{name} beside {call:?}: due {due:?}, got {found:?}"
            ));
        }
        Ok(())
    }
}
