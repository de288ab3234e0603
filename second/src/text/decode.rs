//! Bytes to text.

use super::line::green_links;
use crate::certificate::{Certificate, Goal, Kind, Link};
use crate::reading::read;
use crate::report::Report;

/// Turns the bytes of a certificate that passes the reading tests into text; any other gets its refusal.
pub fn decode(bytes: &[u8]) -> Result<String, Report> {
    let certificate = read(bytes)?;
    let mut lines = network_lines(&certificate);
    lines.extend(policy_lines(&certificate));
    lines.push("end\n".to_string());
    Ok(lines.join("\n"))
}

/// The header, links, turns, signals and, but in an HD certificate, modes.
fn network_lines(certificate: &Certificate) -> Vec<String> {
    let mut lines = vec![header_line(certificate)];
    lines.extend(certificate.links.iter().map(link_line));
    for turn in &certificate.turns {
        lines.push(format!(
            "turn from {} to {} share {} pull {}",
            turn.from, turn.to, turn.share, turn.pull
        ));
    }
    for &green in &certificate.signals {
        lines.push(format!("signal green {}", green_links(green)));
    }
    for (mode, signal) in certificate.memory.iter().enumerate() {
        let line = format!("mode signal {signal}");
        lines.push(match certificate.goals.get(mode) {
            Some(goal) => goal_line(line, goal),
            None => line,
        });
    }
    lines
}

/// The line of a mode with its goal.
fn goal_line(line: String, Goal { number, amounts }: &Goal) -> String {
    let first = format!("{line} goal {number} goals");
    line_of(&first, amounts.iter().map(u16::to_string))
}

fn header_line(certificate: &Certificate) -> String {
    let kind = match certificate.kind {
        Kind::Hd => String::new(),
        kind => format!("kind {} ", kind.name()),
    };
    format!(
        "header {kind}links {} turns {} signals {} modes {} arrivals {} entries {}",
        certificate.links.len(),
        certificate.turns.len(),
        certificate.signals.len(),
        certificate.modes,
        certificate.arrivals.len(),
        certificate.entries.len()
    )
}

fn link_line(link: &Link) -> String {
    let start = link.start.map(|start| format!(" start {start}"));
    format!(
        "link tail {} head {} cap {} flow {} safe {} goal {}{}",
        link.tail,
        link.head,
        link.cap,
        link.flow,
        link.safe,
        link.goal,
        start.unwrap_or_default()
    )
}

/// The grid, arrival boxes and entries.
fn policy_lines(certificate: &Certificate) -> Vec<String> {
    let mut lines = Vec::new();
    for cuts in &certificate.cuts {
        lines.push(line_of("grid", cuts.iter().map(u16::to_string)));
    }
    for arrivals in &certificate.arrivals {
        let pairs = arrivals.iter().map(|a| format!("{}-{}", a.low, a.high));
        lines.push(line_of("arrivals", pairs));
    }
    for entry in &certificate.entries {
        lines.push(format!(
            "entry cell {} mode {} signal {} next {} rank {}",
            entry.cell, entry.mode, entry.signal, entry.next, entry.rank
        ));
    }
    lines
}

/// How a line begins, and the words after it.
fn line_of(first: &str, words: impl Iterator<Item = String>) -> String {
    words.fold(first.to_string(), |line, word| line + " " + &word)
}
