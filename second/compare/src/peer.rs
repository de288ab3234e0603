//! A plain checker of the library's method, made for speed; its results are those of the second checker.
//!
//! Image ends before arrivals are taken once an entry, the ranges of intervals and the links that may exceed their cap
//! once an arrival box. Successors are visited as runs of consecutive cells. Each of them is looked up by itself: an
//! index tells where the entries of its cell start, they are walked for the mode, and the rank is compared.

mod comparing;
mod index;
mod judging;
mod poll;
mod runs;

pub use comparing::compare;
pub use poll::poll;

use crate::fast::listing::{put, put_refusal};
use crate::fast::network::Network;
use second::Verdict;

/// Judges any bytes.
pub fn judge(bytes: &[u8]) -> Verdict {
    match judging::read_indexed(bytes, &mut Network::default()) {
        Ok((read, index)) => judging::judge_entries(&read, &index),
        Err(refusal) => Verdict::refused(refusal),
    }
}

/// Puts the listing of the bytes into the buffer and tells its length; none if the buffer is too short.
pub fn listing(bytes: &[u8], buffer: &mut [u8]) -> Option<usize> {
    match judging::read_indexed(bytes, &mut Network::default()) {
        Ok((read, index)) => put(&read, judging::judge_entries(&read, &index), buffer),
        Err(refusal) => put_refusal(refusal, buffer),
    }
}
