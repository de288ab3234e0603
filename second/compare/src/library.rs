//! The exported functions of the library, as safe functions on slices.
//!
//! A report receives number, place A, place B and count; a verdict, which `judge` and `load` give, also how many
//! entries may overflow, a query's answer also signal and green byte, and a comparison also which of the two is
//! better. Each function returns the number. A report, verdict or answer that is too short gives `TOO_SHORT` and
//! changes nothing; a state of another length than `STATE_SIZE` gives `NO_STATE`, in the report too, and its bytes stay.

use second::State;

/// Bytes of the length in a state.
pub const LENGTH_SIZE: usize = 8;
/// Bytes of a state: the stored array, its length (high byte first), the mode.
pub const STATE_SIZE: usize = State::CAPACITY + LENGTH_SIZE + 1;
const _: () = assert!(STATE_SIZE == 37_948);
/// Numbers of a report.
pub const REPORT_SIZE: usize = 4;
/// Numbers of a verdict.
pub const VERDICT_SIZE: usize = 5;
/// Numbers of a query's answer.
pub const SHOWN_SIZE: usize = 6;
/// Numbers of a comparison: those of a report, then 1 equal, 2 first, 3 second, 4 neither, or 0 with a refusal.
pub const COMPARISON_SIZE: usize = 5;
/// The result for a report, a verdict or an answer that is too short.
pub const TOO_SHORT: u32 = 255;
/// The result for a state of another length.
pub const NO_STATE: u32 = 18;

extern "C" {
    fn dergvost_screen(s: *const u8, s_len: usize, report: *mut u32, report_len: usize) -> u32;
    fn dergvost_judge(s: *const u8, s_len: usize, verdict: *mut u32, verdict_len: usize) -> u32;
    fn dergvost_fresh(state: *mut u8, state_len: usize) -> u32;
    fn dergvost_load(
        state: *mut u8,
        state_len: usize,
        s: *const u8,
        s_len: usize,
        verdict: *mut u32,
        verdict_len: usize,
    ) -> u32;
    fn dergvost_query(
        state: *mut u8,
        state_len: usize,
        queues: *const u32,
        queues_len: usize,
        scale: u32,
        shown: *mut u32,
        shown_len: usize,
    ) -> u32;
    fn dergvost_write(
        state: *const u8,
        state_len: usize,
        buffer: *mut u8,
        buffer_len: usize,
        start: usize,
        report: *mut u32,
        report_len: usize,
    ) -> u32;
    fn dergvost_list(
        s: *const u8,
        s_len: usize,
        buffer: *mut u8,
        buffer_len: usize,
        report: *mut u32,
        report_len: usize,
    ) -> u32;
    fn dergvost_compare(
        first: *const u8,
        first_len: usize,
        second: *const u8,
        second_len: usize,
        comparison: *mut u32,
        comparison_len: usize,
    ) -> u32;
}

/// The tests before 12.
pub fn screen(bytes: &[u8], report: &mut [u32]) -> u32 {
    // SAFETY: every pointer comes with the length of its slice; the library keeps none of them.
    unsafe {
        dergvost_screen(
            bytes.as_ptr(),
            bytes.len(),
            report.as_mut_ptr(),
            report.len(),
        )
    }
}

/// The verdict.
pub fn judge(bytes: &[u8], verdict: &mut [u32]) -> u32 {
    // SAFETY: as for `screen`.
    unsafe {
        dergvost_judge(
            bytes.as_ptr(),
            bytes.len(),
            verdict.as_mut_ptr(),
            verdict.len(),
        )
    }
}

/// Makes the state fresh.
pub fn fresh(state: &mut [u8]) -> u32 {
    // SAFETY: as for `screen`.
    unsafe { dergvost_fresh(state.as_mut_ptr(), state.len()) }
}

/// Judges the bytes, and stores them if they are accepted.
pub fn load(state: &mut [u8], bytes: &[u8], verdict: &mut [u32]) -> u32 {
    // SAFETY: as for `screen`; the slices do not overlap.
    unsafe {
        dergvost_load(
            state.as_mut_ptr(),
            state.len(),
            bytes.as_ptr(),
            bytes.len(),
            verdict.as_mut_ptr(),
            verdict.len(),
        )
    }
}

/// Looks the signal up for queues over a scale.
pub fn query(state: &mut [u8], queues: &[u32], scale: u32, shown: &mut [u32]) -> u32 {
    // SAFETY: as for `load`.
    unsafe {
        dergvost_query(
            state.as_mut_ptr(),
            state.len(),
            queues.as_ptr(),
            queues.len(),
            scale,
            shown.as_mut_ptr(),
            shown.len(),
        )
    }
}

/// Writes the stored certificate into the buffer from `start`.
pub fn write(state: &[u8], buffer: &mut [u8], start: usize, report: &mut [u32]) -> u32 {
    // SAFETY: as for `load`.
    unsafe {
        dergvost_write(
            state.as_ptr(),
            state.len(),
            buffer.as_mut_ptr(),
            buffer.len(),
            start,
            report.as_mut_ptr(),
            report.len(),
        )
    }
}

/// Puts the listing of the bytes at the start of the buffer; place A is the text's length.
pub fn list(bytes: &[u8], buffer: &mut [u8], report: &mut [u32]) -> u32 {
    // SAFETY: as for `load`.
    unsafe {
        dergvost_list(
            bytes.as_ptr(),
            bytes.len(),
            buffer.as_mut_ptr(),
            buffer.len(),
            report.as_mut_ptr(),
            report.len(),
        )
    }
}

/// Which of two certificates is better, or the refusal of the first that is not accepted.
pub fn compare(first: &[u8], second: &[u8], comparison: &mut [u32]) -> u32 {
    // SAFETY: as for `screen`.
    unsafe {
        dergvost_compare(
            first.as_ptr(),
            first.len(),
            second.as_ptr(),
            second.len(),
            comparison.as_mut_ptr(),
            comparison.len(),
        )
    }
}
