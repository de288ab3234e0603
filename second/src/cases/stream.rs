//! The stored cases as one stream of calls, the input of a test program.
//!
//! Numbers stand high byte first. A case is `C` and its calls:
//!
//! - `F`: the fresh state
//! - `S` n:u32 bytes[n] length:u64 mode:u8: a state made by hand, zeros behind the bytes
//! - `L` n:u32 bytes[n]: load
//! - `Q` scale:u32 count:u16 queue:u32 × count: query
//! - `P` n:u32 bytes[n]: poll
//! - `W` size:u32 start:u64: write into a buffer of `size` bytes
//! - `T` n:u32 bytes[n]: listing
//! - `M` n:u32 m:u32 bytes[n] bytes[m]: comparison of the first certificate with the second
//!
//! `E` ends the stream.

use super::call::Call;
use super::folder::{read_folder, Paired};
use super::stored::Certificates;
use crate::state::State;
use std::path::Path;

/// A certificate in a stream has at most this many bytes.
pub const MOST_BYTES: usize = 40_960;
/// A poll in a stream has at most this many bytes.
pub const MOST_POLL: usize = 1_024;

/// All cases of a folder.
pub fn stream(folder: &Path) -> Result<Vec<u8>, String> {
    let read = read_folder(folder)?;
    let mut out = Vec::new();
    for case in &read.cases {
        out.push(b'C');
        for Paired { call, .. } in &case.calls {
            put_call(&mut out, &call.said, &read.certificates)
                .map_err(|what| format!("{}:{}: {what}", case.file, call.line))?;
        }
    }
    out.push(b'E');
    Ok(out)
}

/// The bytes of a certificate whose name is known to be there, unless there are too many.
pub(super) fn fitting<'a>(certificates: &'a Certificates, name: &str) -> Result<&'a [u8], String> {
    let bytes = &certificates[name].bytes;
    if bytes.len() > MOST_BYTES {
        let found = bytes.len();
        return Err(format!(
            "expected at most {MOST_BYTES} bytes, found {found} in paper {name}"
        ));
    }
    Ok(bytes)
}

/// The bytes of a poll, unless there are too many.
pub(super) fn fitting_poll(bytes: &[u8]) -> Result<&[u8], String> {
    if bytes.len() > MOST_POLL {
        let found = bytes.len();
        return Err(format!(
            "expected at most {MOST_POLL} bytes, found {found} in a poll"
        ));
    }
    Ok(bytes)
}

fn put_call(out: &mut Vec<u8>, call: &Call, certificates: &Certificates) -> Result<(), String> {
    match call {
        Call::Fresh => out.push(b'F'),
        Call::State { name, length, mode } => {
            let stored = fitting(certificates, name)?;
            let length = length.unwrap_or(stored.len());
            put_bytes(out, b'S', &stored[..stored.len().min(State::CAPACITY)]);
            out.extend((length as u64).to_be_bytes());
            out.push(*mode);
        }
        Call::Load { name } => put_bytes(out, b'L', fitting(certificates, name)?),
        Call::Query { scale, queues } => put_query(out, *scale, queues)?,
        Call::Poll { bytes } => put_bytes(out, b'P', fitting_poll(bytes)?),
        Call::Write { buffer, start } => {
            out.push(b'W');
            out.extend((*buffer as u32).to_be_bytes());
            out.extend((*start as u64).to_be_bytes());
        }
        Call::List { name } => put_bytes(out, b'T', fitting(certificates, name)?),
        Call::Compare { first, second } => {
            let both = [
                fitting(certificates, first)?,
                fitting(certificates, second)?,
            ];
            out.push(b'M');
            both.iter().for_each(|bytes| put_length(out, bytes));
            out.extend(both.concat());
        }
    }
    Ok(())
}

/// A mark, how many bytes follow, and the bytes.
fn put_bytes(out: &mut Vec<u8>, mark: u8, bytes: &[u8]) {
    out.push(mark);
    put_length(out, bytes);
    out.extend_from_slice(bytes);
}

fn put_length(out: &mut Vec<u8>, bytes: &[u8]) {
    out.extend((bytes.len() as u32).to_be_bytes());
}

fn put_query(out: &mut Vec<u8>, scale: u32, queues: &[u32]) -> Result<(), String> {
    let count = u16::try_from(queues.len())
        .map_err(|_| format!("expected at most 65535 queues, found {}", queues.len()))?;
    out.push(b'Q');
    out.extend(scale.to_be_bytes());
    out.extend(count.to_be_bytes());
    for queue in queues {
        out.extend(queue.to_be_bytes());
    }
    Ok(())
}
