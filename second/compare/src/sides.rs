//! The library and the second checker side by side: every call is made on both, and all that it leaves is compared.
//! Calls that the roadside crate has too are made there as well, on a copy of the state.

mod roadside;

pub use roadside::agree_results;

use crate::generate::Query;
use crate::library::{self, LENGTH_SIZE, REPORT_SIZE, SHOWN_SIZE, VERDICT_SIZE};
use crate::roadside::{packed_answer, packed_verdict, queue_bytes, shown_answer, shown_verdict};
use second::conditions::read_sound;
use second::{listing, Report, State, Verdict};

/// What stands in a report before a call.
const BEFORE: u32 = 0xA5A5_A5A5;

/// A call that did not agree.
#[derive(Clone, Debug)]
pub struct Difference {
    /// The call, in words.
    pub call: String,
    pub second: String,
    pub library: String,
}

pub type Agreed<T> = Result<T, Box<Difference>>;

/// One state on each side.
pub struct Sides {
    pub own: State,
    pub library: Vec<u8>,
}

/// The bytes of a state in the library's form.
pub fn state_bytes(state: &State) -> Vec<u8> {
    let mut bytes = state.stored.to_vec();
    bytes.extend((state.length as u64).to_be_bytes());
    bytes.push(state.mode);
    bytes
}

/// The byte that a lent buffer holds before a call.
pub fn lent_buffer(size: usize) -> Vec<u8> {
    (0..size).map(|i| ((i % 256 * 7 + 3) % 256) as u8).collect()
}

/// A number as the library gives it.
fn number(value: u64) -> u32 {
    u32::try_from(value).unwrap_or(u32::MAX)
}

/// The numbers of a report.
pub fn report_numbers(report: Report) -> [u32; REPORT_SIZE] {
    [
        report.number,
        number(report.a),
        number(report.b),
        number(report.count),
    ]
}

/// The numbers of a verdict.
pub fn verdict_numbers(verdict: Verdict) -> [u32; VERDICT_SIZE] {
    let [result, a, b, count] = report_numbers(verdict.report);
    [result, a, b, count, number(verdict.overflows)]
}

/// The second checker's numbers against a result of the library and what it has put down.
fn agree(call: impl FnOnce() -> String, own: &[u32], result: u32, put: &[u32]) -> Agreed<()> {
    if result == own[0] && own == put {
        return Ok(());
    }
    let words = |numbers: &[u32]| {
        let words: Vec<String> = numbers.iter().map(u32::to_string).collect();
        words.join(" ")
    };
    Err(Box::new(Difference {
        call: call(),
        second: words(own),
        library: format!("{} (returned {result})", words(put)),
    }))
}

/// Agrees on bytes, or tells the first that differs.
pub fn agree_bytes(call: impl FnOnce() -> String, second: &[u8], library: &[u8]) -> Agreed<()> {
    if second == library {
        return Ok(());
    }
    let pairs = second.iter().zip(library);
    let at = pairs.take_while(|(own, other)| own == other).count();
    let shown = |bytes: &[u8]| format!("byte {at} is {:?}", bytes.get(at));
    Err(Box::new(Difference {
        call: call(),
        second: shown(second),
        library: shown(library),
    }))
}

/// The tests before 12 on both sides.
pub fn screen(bytes: &[u8]) -> Agreed<Report> {
    let own = match read_sound(bytes) {
        Ok(_) => Report::SUCCESS,
        Err(refusal) => refusal,
    };
    let mut report = [BEFORE; REPORT_SIZE];
    let number = library::screen(bytes, &mut report);
    agree(
        || "screen".to_string(),
        &report_numbers(own),
        number,
        &report,
    )?;
    Ok(own)
}

/// The verdict of the library against that of the second checker.
pub fn judge(bytes: &[u8], own: Verdict) -> Agreed<()> {
    let mut verdict = [BEFORE; VERDICT_SIZE];
    let number = library::judge(bytes, &mut verdict);
    agree(
        || "judge".to_string(),
        &verdict_numbers(own),
        number,
        &verdict,
    )
}

/// The listing on both sides, in a buffer of `room` bytes.
pub fn list(bytes: &[u8], text: &str, room: usize) -> Agreed<Report> {
    let call = || format!("list into {room} bytes");
    let mut due = lent_buffer(room);
    let mut buffer = due.clone();
    let own = match due.get_mut(..text.len()) {
        Some(part) => {
            part.copy_from_slice(text.as_bytes());
            Report::at(0, text.len())
        }
        None => Report::refusal(17),
    };
    let mut report = [BEFORE; REPORT_SIZE];
    let number = library::list(bytes, &mut buffer, &mut report);
    agree(call, &report_numbers(own), number, &report)?;
    agree_bytes(call, &due, &buffer)?;
    Ok(own)
}

/// The text of a listing by the second checker.
pub fn listed(bytes: &[u8]) -> String {
    listing(bytes).0
}

impl Sides {
    /// Both sides in this state.
    pub fn of(own: State) -> Sides {
        let library = state_bytes(&own);
        Sides { own, library }
    }

    pub fn agree_states(&self, call: impl FnOnce() -> String) -> Agreed<()> {
        let (stored, rest) = self.library.split_at(State::CAPACITY);
        let (length, mode) = rest.split_at(LENGTH_SIZE);
        let same = stored == self.own.stored
            && length == (self.own.length as u64).to_be_bytes()
            && mode == [self.own.mode];
        if same {
            return Ok(());
        }
        let call = || format!("state after {}", call());
        agree_bytes(call, &state_bytes(&self.own), &self.library)
    }

    /// Both sides become fresh.
    pub fn fresh(&mut self) -> Agreed<()> {
        let call = || "fresh".to_string();
        let before = self.library.clone();
        self.own = State::fresh();
        let result = library::fresh(&mut self.library);
        agree(call, &[0], result, &[result])?;
        self.agree_states(call)?;
        self.agree_roadside(call, shown_verdict, 0, before, crate::roadside::fresh)
    }

    /// The result of the roadside crate has all but how many entries may overflow.
    pub fn load(&mut self, bytes: &[u8]) -> Agreed<Verdict> {
        let call = || "load".to_string();
        let before = self.library.clone();
        let own = self.own.load(bytes);
        let mut verdict = [BEFORE; VERDICT_SIZE];
        let number = library::load(&mut self.library, bytes, &mut verdict);
        agree(call, &verdict_numbers(own), number, &verdict)?;
        self.agree_states(call)?;
        let due = packed_verdict(own);
        self.agree_roadside(call, shown_verdict, due, before, |state| {
            crate::roadside::load(state, bytes)
        })?;
        Ok(own)
    }

    pub fn query(&mut self, query: &Query) -> Agreed<Report> {
        let mode = self.own.mode;
        let call = || {
            let Query { scale, queues } = query;
            format!("query scale {scale} queues {queues:?} in mode {mode}")
        };
        let before = self.library.clone();
        let answer = self.own.query(&query.queues, query.scale);
        let [number, a, b, count] = report_numbers(answer.report);
        let own = [
            number,
            a,
            b,
            count,
            answer.signal.into(),
            answer.green.into(),
        ];
        let mut shown = [BEFORE; SHOWN_SIZE];
        let result = library::query(&mut self.library, &query.queues, query.scale, &mut shown);
        agree(call, &own, result, &shown)?;
        self.agree_states(call)?;
        self.agree_roadside(call, shown_answer, packed_answer(answer), before, |state| {
            crate::roadside::query(state, &queue_bytes(&query.queues), query.scale)
        })?;
        Ok(answer.report)
    }

    pub fn write(&mut self, size: usize, start: usize) -> Agreed<Report> {
        let call = || format!("write buffer {size} start {start}");
        let mut due = lent_buffer(size);
        let mut buffer = due.clone();
        let own = self.own.write(&mut due, start);
        let mut report = [BEFORE; REPORT_SIZE];
        let number = library::write(&self.library, &mut buffer, start, &mut report);
        agree(call, &report_numbers(own), number, &report)?;
        agree_bytes(call, &due, &buffer)?;
        self.agree_states(call)?;
        Ok(own)
    }
}
