//! What a test program that is fed the stream of the stored cases must print, by the due results alone.
//!
//! - for each case `case N`, counted from 0
//! - load: `load NUMBER A B COUNT mode M length N`; with NUMBER 0 `overflow E` stands before `mode`
//! - query: `query NUMBER A B COUNT signal S green G mode M`
//! - poll: `poll NUMBER A B COUNT signal S green G mode M`
//! - write: `write NUMBER A B COUNT sum H`, H the hash of the whole buffer after the call
//! - listing: `list NUMBER A B COUNT`, then the text
//! - comparison: `compare NUMBER A B COUNT WORD`
//!
//! All numbers are decimal. A listing's buffer has room for every text, so it gives 0 and the text's length.

use super::call::Call;
use super::due::Due;
use super::folder::{read_folder, Paired};
use super::run::due_buffer;
use super::stored::Certificates;
use super::stream::{fitting, fitting_poll};
use crate::report::Report;
use std::path::Path;

/// The text for all cases of a folder.
pub fn expected(folder: &Path) -> Result<String, String> {
    let read = read_folder(folder)?;
    let mut out = String::new();
    for (number, case) in read.cases.iter().enumerate() {
        out += &format!("case {number}\n");
        for paired in &case.calls {
            out += &printed(paired, &read.certificates)
                .map_err(|what| format!("{}:{}: {what}", case.file, paired.call.line))?;
        }
    }
    Ok(out)
}

/// What is printed for one call; nothing for `fresh` and `state`.
fn printed(paired: &Paired, certificates: &Certificates) -> Result<String, String> {
    let call = &paired.call.said;
    for name in call.certificates() {
        fitting(certificates, name)?;
    }
    if let Call::Poll { bytes } = call {
        fitting_poll(bytes)?;
    }
    Ok(match &paired.due {
        None => String::new(),
        Some(due @ (Due::Load { .. } | Due::Compare { .. })) => format!("{due}\n"),
        Some(due @ (Due::Query(shown) | Due::Poll(shown))) => format!(
            "{} {} signal {} green {} mode {}\n",
            due.word(),
            shown.report,
            shown.signal,
            shown.green,
            shown.mode
        ),
        Some(Due::Write { report, holds }) => {
            let buffer = due_buffer(holds, lent_size(call), certificates)
                .ok_or("expected a buffer with room for the due certificate")?;
            format!("write {report} sum {}\n", hash(&buffer))
        }
        Some(Due::List { text }) => {
            let report = Report::at(0, text.len());
            format!("list {report}\n{text}")
        }
    })
}

/// The size of the lent buffer.
fn lent_size(call: &Call) -> usize {
    match call {
        Call::Write { buffer, .. } => *buffer,
        _ => 0,
    }
}

/// The 32-bit FNV-1a hash.
pub fn hash(bytes: &[u8]) -> u32 {
    bytes.iter().fold(2_166_136_261, |hash: u32, &byte| {
        (hash ^ u32::from(byte)).wrapping_mul(16_777_619)
    })
}
