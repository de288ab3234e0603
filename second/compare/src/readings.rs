//! The tests before 12 on prefixes of accepted certificates, and on copies with one byte changed.

use crate::differential::shown_bytes;
use crate::samples;
use crate::sides::{screen, Agreed};

/// How many of the places are tried.
#[derive(Clone, Copy, Debug, PartialEq, Eq)]
pub enum Extent {
    All,
    /// Every one of the small certificates, and some of the others.
    Part,
}

/// Both checkers agree on all that is tried; tells how much that was, or the first difference.
pub fn readings(extent: Extent) -> Result<u64, String> {
    let mut tried = 0;
    for bytes in [
        samples::listed(),
        samples::typical(),
        samples::largest(),
        samples::h2::listed(),
        samples::h2::typical(),
        samples::h2::largest(),
        samples::h3::listed(),
        samples::h3::typical(),
        samples::h3::largest(),
    ] {
        let step = match extent {
            Extent::All => 1,
            Extent::Part => 1 + bytes.len() / 300,
        };
        for at in (0..bytes.len()).step_by(step) {
            tried += try_at(&bytes, at).map_err(|failed| failed.shown())?;
        }
        try_bytes(&bytes).map_err(|failed| failed.shown())?;
        tried += 1;
    }
    Ok(tried)
}

/// A copy on which the checkers differ.
struct Failed {
    what: String,
    bytes: Vec<u8>,
}

impl Failed {
    fn shown(&self) -> String {
        format!("{}\n{}", self.what, shown_bytes(&self.bytes))
    }
}

fn try_bytes(bytes: &[u8]) -> Result<(), Failed> {
    let agreed: Agreed<_> = screen(bytes);
    agreed.map(|_| ()).map_err(|difference| Failed {
        what: format!(
            "difference: {}\n  second checker: {}\n  library: {}",
            difference.call, difference.second, difference.library
        ),
        bytes: bytes.to_vec(),
    })
}

/// The prefix that ends here, and the byte here changed to 0, 255 and its neighbours.
fn try_at(bytes: &[u8], at: usize) -> Result<u64, Failed> {
    try_bytes(&bytes[..at])?;
    let mut copy = bytes.to_vec();
    let byte = bytes[at];
    let mut others = vec![0, 255, byte.wrapping_sub(1), byte.wrapping_add(1)];
    others.retain(|&other| other != byte);
    others.sort();
    others.dedup();
    for &other in &others {
        copy[at] = other;
        try_bytes(&copy)?;
    }
    Ok(1 + others.len() as u64)
}
