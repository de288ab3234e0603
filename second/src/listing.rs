//! The listing of a certificate.

use crate::conditions::read_sound;
use crate::judging::judge_entries;
use crate::report::{Report, Verdict};

/// The listing's text, every line ended by a line feed, and the verdict it tells of.
pub fn listing(bytes: &[u8]) -> (String, Verdict) {
    let certificate = match read_sound(bytes) {
        Ok(certificate) => certificate,
        Err(refusal) => return (refused(refusal), Verdict::refused(refusal)),
    };
    let verdict = judge_entries(&certificate);
    if !verdict.is_accepted() {
        return (refused(verdict.report), verdict);
    }
    let mut text = format!(
        "links {} turns {} signals {} modes {} arrivals {} entries {}\n",
        certificate.links.len(),
        certificate.turns.len(),
        certificate.signals.len(),
        certificate.modes,
        certificate.arrivals.len(),
        certificate.entries.len()
    );
    for entry in &certificate.entries {
        text += &format!(
            "{} {} {} {} {}\n",
            entry.cell, entry.mode, entry.signal, entry.next, entry.rank
        );
    }
    text += &accepted(verdict);
    (text, verdict)
}

/// The last line of an accepted certificate: the count, and how many entries may overflow.
pub fn accepted(verdict: Verdict) -> String {
    format!("accepted {} {}\n", verdict.report.count, verdict.overflows)
}

/// The one line of a refused certificate.
pub fn refused(refusal: Report) -> String {
    format!("refused {refusal}\n")
}
