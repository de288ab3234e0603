//! One call of the library, for tools that look into it.

use super::calls::{Call, Ready};
use super::sample::Sample;

/// Makes a call so many times, and tells the numbers that it puts down.
pub fn once(call: &str, certificate: &str, times: u32) -> Result<String, String> {
    let sample = Sample::named(certificate)?;
    let mut ready = Ready::of(Call::named(call)?, &sample)?;
    for _ in 0..times {
        ready.make();
    }
    Ok(format!("{call} {certificate}: {:?}", ready.shown()))
}
