//! The table of times.

use std::fmt;

/// What stands at the end of a row.
#[derive(Clone, Copy, Debug, PartialEq)]
pub enum Other {
    None,
    /// The same by a checker of another method.
    Method(f64),
    /// The same without copies of the state.
    InPlace(f64),
    /// A bare copy of the certificate.
    Copy(f64),
    /// The library's own verdicts on both certificates of a comparison.
    TwiceJudge(f64),
}

/// Times of one call on one certificate, in nanoseconds.
pub struct Row {
    pub call: &'static str,
    pub certificate: String,
    pub lookups: u64,
    pub library: f64,
    pub peer: f64,
    pub other: Other,
}

impl Row {
    pub const TITLE: &'static str = "\
Peer: a plain Rust checker of the library's method. Beside a screen stands one Rust pass of the tests before
12; beside a load a verdict and a copy of the state; beside a query one such pass and two copies of the state;
beside a poll the same and the lookup of what its detectors give; beside a write one such pass, a copy of the
state and one of the certificate; beside a comparison two verdicts, the bytes before the entries and one walk
through both tables. Compared are the certificate and the same with its last rank higher by one, in `largest`,
where every rank must be 0, with another last signal; lookups are those of both. Twice judge: the library's own
verdicts on the two. Ratios: library over the other.

                               processor time, ns              ns per lookup     another method: blocks
                                                                                 of cells at once (fast)
call   certificate     lookups     library        peer   ratio   library     peer          ns   ratio";
}

impl fmt::Display for Row {
    fn fmt(&self, out: &mut fmt::Formatter<'_>) -> fmt::Result {
        let lookups = match self.lookups {
            0 => String::new(),
            lookups => lookups.to_string(),
        };
        let ratio = |other: f64| self.library / other;
        write!(
            out,
            "{:<20} {lookups:>9} {:>11.0} {:>11.0} {:>7.2}",
            format!("{:<6} {}", self.call, self.certificate),
            self.library,
            self.peer,
            ratio(self.peer)
        )?;
        if self.lookups > 0 {
            let each = |whole: f64| whole / self.lookups as f64;
            write!(out, " {:>9.3} {:>8.3}", each(self.library), each(self.peer))?;
        }
        match self.other {
            Other::None => Ok(()),
            Other::Method(other) => write!(out, " {other:>11.0} {:>7.2}", ratio(other)),
            Other::InPlace(other) => write!(out, "   (without copies of the state: {other:.0} ns)"),
            Other::Copy(copy) => write!(out, "   (a bare copy of the certificate: {copy:.0} ns)"),
            Other::TwiceJudge(twice) => write!(
                out,
                "   (twice judge: {twice:.0} ns, ratio {:.3})",
                ratio(twice)
            ),
        }
    }
}
