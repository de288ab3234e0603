//! Calls of the roadside crate beside those of the second checker and of the library.

use super::{agree_bytes, Agreed, Difference, Sides};
use crate::roadside::{self, packed_answer, shown_answer};
use second::Report;

/// Agrees on a result that holds all numbers.
pub fn agree_results(
    call: impl FnOnce() -> String,
    shown: fn(u64) -> String,
    second: u64,
    library: u64,
) -> Agreed<()> {
    if second == library {
        return Ok(());
    }
    Err(Box::new(Difference {
        call: call(),
        second: shown(second),
        library: shown(library),
    }))
}

/// A poll as the line of a stored case.
fn shown_poll(poll: &[u8]) -> String {
    if poll.is_empty() {
        return "poll bytes none".to_string();
    }
    let bytes: Vec<String> = poll.iter().map(|byte| format!("{byte:02X}")).collect();
    format!("poll bytes {}", bytes.join(" "))
}

impl Sides {
    /// A call of the roadside crate on a copy of the state as it was before: the due result, and the state as both
    /// sides have it now.
    pub(super) fn agree_roadside(
        &self,
        call: impl FnOnce() -> String,
        shown: fn(u64) -> String,
        due: u64,
        mut before: Vec<u8>,
        make: impl FnOnce(&mut [u8]) -> u64,
    ) -> Agreed<()> {
        let result = make(&mut before);
        let call = || format!("roadside {}", call());
        if result != due {
            return agree_results(call, shown, due, result);
        }
        agree_bytes(|| format!("state after {}", call()), &self.library, &before)
    }

    /// A poll, which only the roadside crate takes.
    pub fn poll(&mut self, poll: &[u8]) -> Agreed<Report> {
        let mode = self.own.mode;
        let call = || format!("{} in mode {mode}", shown_poll(poll));
        let answer = self.own.poll(poll);
        let result = roadside::poll(&mut self.library, poll);
        agree_results(call, shown_answer, packed_answer(answer), result)?;
        self.agree_states(call)?;
        Ok(answer.report)
    }
}
