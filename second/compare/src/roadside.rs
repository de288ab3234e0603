//! The exported functions of the roadside crate, as safe functions on slices.
//!
//! The state has the bytes that it has for the functions of `library`; one of another length gives 18, before every
//! other test, and its bytes stay. A result is one number that holds all others, each in bits of its own.

use crate::library::SHOWN_SIZE;
use second::state::Answer;
use second::Verdict;

extern "C" {
    fn roadside_fresh(state: *mut u8, state_len: usize) -> u64;
    fn roadside_load(state: *mut u8, state_len: usize, paper: *const u8, paper_len: usize) -> u64;
    fn roadside_query(
        state: *mut u8,
        state_len: usize,
        queues: *const u8,
        queues_len: usize,
        scale: u32,
    ) -> u64;
    fn roadside_poll(state: *mut u8, state_len: usize, poll: *const u8, poll_len: usize) -> u64;
}

/// Makes the state fresh.
pub fn fresh(state: &mut [u8]) -> u64 {
    // SAFETY: every pointer comes with the length of its slice; the library keeps none of them.
    unsafe { roadside_fresh(state.as_mut_ptr(), state.len()) }
}

/// Judges the bytes, and stores them if they are accepted.
pub fn load(state: &mut [u8], bytes: &[u8]) -> u64 {
    // SAFETY: as for `fresh`; the slices do not overlap.
    unsafe { roadside_load(state.as_mut_ptr(), state.len(), bytes.as_ptr(), bytes.len()) }
}

/// Looks the signal up for queues over a scale; each queue is four bytes, high byte first.
pub fn query(state: &mut [u8], queues: &[u8], scale: u32) -> u64 {
    // SAFETY: as for `load`.
    unsafe {
        roadside_query(
            state.as_mut_ptr(),
            state.len(),
            queues.as_ptr(),
            queues.len(),
            scale,
        )
    }
}

/// Looks the signal up for a poll of all detectors.
#[inline]
pub fn poll(state: &mut [u8], poll: &[u8]) -> u64 {
    // SAFETY: as for `load`.
    unsafe { roadside_poll(state.as_mut_ptr(), state.len(), poll.as_ptr(), poll.len()) }
}

/// The bytes of queues.
pub fn queue_bytes(queues: &[u32]) -> Vec<u8> {
    queues
        .iter()
        .flat_map(|queue| queue.to_be_bytes())
        .collect()
}

/// One number of fields that have their bits from the first place to before the second.
fn packed(fields: &[(u64, u32, u32)]) -> u64 {
    fields.iter().fold(0, |all, &(value, low, high)| {
        assert!(
            value < 1 << (high - low),
            "{value} from bit {low} to {high}"
        );
        all | value << low
    })
}

/// The result of a load. An acceptance has no place A; its number of overflowing entries stands there.
pub fn packed_verdict(verdict: Verdict) -> u64 {
    let report = verdict.report;
    let place = match report.number {
        0 => verdict.overflows,
        _ => report.a,
    };
    packed(&[
        (report.number.into(), 0, 8),
        (place, 8, 24),
        (report.b, 24, 36),
        (report.count, 36, 64),
    ])
}

/// The result of a query or a poll; place B is 0 and has no bits.
pub fn packed_answer(answer: Answer) -> u64 {
    let report = answer.report;
    assert_eq!(report.b, 0);
    packed(&[
        (report.number.into(), 0, 8),
        (report.a, 8, 16),
        (report.count, 16, 24),
        (answer.signal.into(), 24, 32),
        (answer.green.into(), 32, 40),
    ])
}

/// The result of a load, for a reader.
pub fn shown_verdict(result: u64) -> String {
    let (number, place) = (result & 255, result >> 8 & 0xFFFF);
    let (b, count) = (result >> 24 & 0xFFF, result >> 36);
    match number {
        0 => format!("0 0 {b} {count} overflow {place}"),
        _ => format!("{number} {place} {b} {count}"),
    }
}

/// The result of a query or a poll, for a reader.
pub fn shown_answer(result: u64) -> String {
    let [number, a, b, count, signal, green] = unpacked(result);
    let text = format!("{number} {a} {b} {count} signal {signal} green {green:02X}");
    match result >> 40 {
        0 => text,
        rest => format!("{text}, {rest:X} in the bits above"),
    }
}

/// Number, places, count, signal and green byte of the result of a query or a poll.
#[inline]
pub fn unpacked(result: u64) -> [u32; SHOWN_SIZE] {
    let byte = |low: u32| (result >> low & 255) as u32;
    [byte(0), byte(8), 0, byte(16), byte(24), byte(32)]
}
