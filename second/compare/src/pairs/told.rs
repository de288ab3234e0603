//! Queries and polls, and what the library answers to them.

use crate::generate::Query;
use crate::library::{self, SHOWN_SIZE, STATE_SIZE};
use crate::roadside::{self, queue_bytes, shown_answer};
use std::fmt;

/// What stands in an answer before a call.
const BEFORE: u32 = 0xA5A5_A5A5;

/// A query or a poll.
pub enum Call {
    Query(Query),
    Poll(Vec<u8>),
}

impl fmt::Display for Call {
    fn fmt(&self, out: &mut fmt::Formatter<'_>) -> fmt::Result {
        match self {
            Call::Query(Query { scale, queues }) => {
                write!(out, "query scale {scale} queues {queues:?}")
            }
            Call::Poll(poll) => write!(out, "poll bytes {poll:02X?}"),
        }
    }
}

/// All that the library answers to a call, and the modes that it leaves.
#[derive(Clone, Copy, Debug, PartialEq, Eq)]
pub struct Told {
    /// What `libexports.a` returns and puts down, and the mode; it takes queries alone.
    exports: Option<(u32, [u32; SHOWN_SIZE], u8)>,
    /// What `libroadside.a` returns, which holds all numbers, and the mode.
    roadside: (u64, u8),
}

impl Told {
    /// Makes the call on copies of a state.
    pub fn of(state: &[u8], call: &Call) -> Told {
        let mode = |state: &[u8]| state[STATE_SIZE - 1];
        let (mut own, mut copy) = (state.to_vec(), state.to_vec());
        match call {
            Call::Query(Query { scale, queues }) => {
                let mut shown = [BEFORE; SHOWN_SIZE];
                let result = library::query(&mut own, queues, *scale, &mut shown);
                let word = roadside::query(&mut copy, &queue_bytes(queues), *scale);
                Told {
                    exports: Some((result, shown, mode(&own))),
                    roadside: (word, mode(&copy)),
                }
            }
            Call::Poll(poll) => Told {
                exports: None,
                roadside: (roadside::poll(&mut copy, poll), mode(&copy)),
            },
        }
    }
}

impl fmt::Display for Told {
    fn fmt(&self, out: &mut fmt::Formatter<'_>) -> fmt::Result {
        if let Some((result, numbers, mode)) = self.exports {
            write!(out, "{numbers:?} (returned {result}) mode {mode}, ")?;
        }
        let (result, mode) = self.roadside;
        write!(out, "roadside {} mode {mode}", shown_answer(result))
    }
}
