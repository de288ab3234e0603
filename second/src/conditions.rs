//! The two conditions that make the flow rule monotone: refusals 10 and 11.

use crate::certificate::{is_green, Certificate};
use crate::reading::read;
use crate::report::Report;

/// Reads a certificate and tests both conditions: every test that comes before 12, which are 1 to 11 and 22 to 24.
pub fn read_sound(bytes: &[u8]) -> Result<Certificate, Report> {
    let certificate = read(bytes)?;
    check_pull_sums(&certificate)?;
    check_flows(&certificate)?;
    Ok(certificate)
}

/// 10: for each signal and link, the sum of share × pull over turns into it from green links is at most 10,000.
pub fn check_pull_sums(certificate: &Certificate) -> Result<(), Report> {
    for (signal, &green) in certificate.signals.iter().enumerate() {
        for link in 0..certificate.links.len() {
            let mut sum: u64 = 0;
            for turn in &certificate.turns {
                if turn.to == link && is_green(green, turn.from) {
                    sum += u64::from(turn.share) * u64::from(turn.pull);
                }
            }
            if sum > 10_000 {
                return Err(Report::at(10, signal).and(link));
            }
        }
    }
    Ok(())
}

/// 11: for each turn, 100 × flow of from is at most pull × (cap − flow) of to.
pub fn check_flows(certificate: &Certificate) -> Result<(), Report> {
    for (number, turn) in certificate.turns.iter().enumerate() {
        let from = &certificate.links[turn.from];
        let to = &certificate.links[turn.to];
        if 100 * u64::from(from.flow) > u64::from(turn.pull) * u64::from(to.cap - to.flow) {
            return Err(Report::at(11, number));
        }
    }
    Ok(())
}
