//! MD records: the signal that each mode remembers and, in an H3 certificate, its goal.

use super::reader::{Reader, Record};
use crate::certificate::{Certificate, Goal};
use crate::report::Report;

/// Greatest goal number.
const MOST_NUMBER: u8 = 7;

/// Reads one record a mode; the certificate holds the links and signals. Every fault is one of number 6.
pub fn read_modes(reader: &mut Reader, certificate: &mut Certificate) -> Result<(), Report> {
    let has_goals = certificate.kind.has_goals();
    let size = match has_goals {
        true => 2 + 2 * certificate.links.len(),
        false => 1,
    };
    for mode in 0..certificate.modes {
        let record = reader.record(b"MD", size)?;
        let signal = record.byte(0);
        record.must(6, usize::from(signal) < certificate.signals.len())?;
        certificate.memory.push(signal);
        if has_goals {
            let goal = read_goal(&record, certificate)?;
            certificate.goals.push(goal);
            let is_last = mode + 1 == certificate.modes;
            record.must(6, !is_last || !has_gap(&certificate.goals))?;
        }
    }
    Ok(())
}

/// Reads the goal of a mode; the certificate holds those of the modes before it. Equal numbers have equal goals.
fn read_goal(record: &Record, certificate: &Certificate) -> Result<Goal, Report> {
    let links = &certificate.links;
    let goal = Goal {
        number: record.byte(1),
        amounts: (0..links.len())
            .map(|link| record.wide(2 + 2 * link))
            .collect(),
    };
    record.must(6, goal.number <= MOST_NUMBER)?;
    let mut amounts = goal.amounts.iter().zip(links);
    record.must(6, amounts.all(|(&amount, link)| amount <= link.safe))?;
    let mut earlier = certificate.goals.iter();
    record.must(6, earlier.all(|e| e.number != goal.number || *e == goal))?;
    Ok(goal)
}

/// Is a number below the greatest one used by no mode?
fn has_gap(goals: &[Goal]) -> bool {
    let used = |number: u8| goals.iter().any(|goal| goal.number == number);
    let greatest = goals.iter().map(|goal| goal.number).max();
    greatest.is_some_and(|greatest| !(0..greatest).all(used))
}
