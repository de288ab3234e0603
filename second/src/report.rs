//! The result of a call, and the verdict on a certificate.

use std::fmt;

/// A number (0 is success), two places and the count of successors looked up.
/// A place that the number does not name is 0, and so is a count.
#[derive(Clone, Copy, Debug, PartialEq, Eq)]
pub struct Report {
    pub number: u32,
    pub a: u64,
    pub b: u64,
    pub count: u64,
}

impl Report {
    /// Success without places or count.
    pub const SUCCESS: Report = Report::refusal(0);

    /// A number without places.
    pub const fn refusal(number: u32) -> Report {
        Report {
            number,
            a: 0,
            b: 0,
            count: 0,
        }
    }

    /// A number with place A.
    pub const fn at(number: u32, a: usize) -> Report {
        Report {
            number,
            a: a as u64,
            b: 0,
            count: 0,
        }
    }

    /// The same with place B.
    pub const fn and(self, b: usize) -> Report {
        Report {
            b: b as u64,
            ..self
        }
    }

    /// The same with a count.
    pub const fn counting(self, count: u64) -> Report {
        Report { count, ..self }
    }
}

impl fmt::Display for Report {
    fn fmt(&self, out: &mut fmt::Formatter<'_>) -> fmt::Result {
        write!(out, "{} {} {} {}", self.number, self.a, self.b, self.count)
    }
}

/// What judging finds.
#[derive(Clone, Copy, Debug, PartialEq, Eq)]
pub struct Verdict {
    pub report: Report,
    /// Entries under which a link may exceed its cap in some arrival box; 0 with a refusal.
    pub overflows: u64,
}

impl Verdict {
    pub const fn accepted(count: u64, overflows: u64) -> Verdict {
        Verdict {
            report: Report::SUCCESS.counting(count),
            overflows,
        }
    }

    pub const fn refused(report: Report) -> Verdict {
        Verdict {
            report,
            overflows: 0,
        }
    }

    pub const fn is_accepted(self) -> bool {
        self.report.number == 0
    }
}

impl fmt::Display for Verdict {
    fn fmt(&self, out: &mut fmt::Formatter<'_>) -> fmt::Result {
        write!(out, "{}", self.report)?;
        match self.is_accepted() {
            true => write!(out, " overflow {}", self.overflows),
            false => Ok(()),
        }
    }
}
