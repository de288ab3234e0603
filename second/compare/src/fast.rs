//! A plain checker made for speed, by a method of its own; its results are those of the second checker.
//!
//! Image ends before arrivals are taken once an entry, from the one corner that the signs of the flow rule name for
//! each end; a link that was red under the signal that the entry's mode remembers is held to its start flow. Ranks are
//! held against the goal of the links, or of the entry's mode where modes have goals.
//! Successors are a range of intervals on each link; each of them is looked up in a table of ranks, a block of cells at
//! a time. A link may exceed its cap where its high end does.

mod blocks;
mod conditions;
pub mod image;
mod judging;
pub mod listing;
mod lookup;
pub mod network;
pub mod place;
pub mod ranges;
pub mod reading;

pub use judging::judge;

use network::Network;
use second::Report;

/// Puts the listing of the bytes into the buffer and tells its length; none if the buffer is too short.
pub fn listing(bytes: &[u8], buffer: &mut [u8]) -> Option<usize> {
    match judging::read_ranked(bytes, &mut Network::default()) {
        Ok((read, ranks)) => listing::put(&read, judging::judge_entries(&read, &ranks), buffer),
        Err(refusal) => listing::put_refusal(refusal, buffer),
    }
}

/// The tests before 12.
pub fn screen(bytes: &[u8]) -> Report {
    match reading::read(bytes, &mut Network::default(), |_| (), |_, _| ()) {
        Ok(_) => Report::SUCCESS,
        Err(refusal) => refusal,
    }
}
