//! The verdict in words.

use super::slice::{link_intervals, Slice};
use super::step::{refused_entry, refused_successor, Place};
use crate::certificate::{Certificate, Entry, Kind};
use crate::grid::Interval;
use crate::listing::accepted;
use crate::report::{Report, Verdict};
use crate::text::green_links;

/// The first line: the listing's words of an acceptance, or the refusal with its number, places and count.
pub fn headline(verdict: Verdict) -> String {
    if verdict.is_accepted() {
        return accepted(verdict).trim_end().to_string();
    }
    let report = verdict.report;
    refused(report, reason(report.number))
}

/// The first line for bytes that cannot be read. Their mark at place A tells apart records that share a number.
pub fn unread_headline(report: Report, bytes: &[u8]) -> String {
    let opens = |kind: &Kind| bytes.starts_with(kind.mark());
    let kind = Kind::ALL.into_iter().find(opens).unwrap_or(Kind::Hd);
    let record = &bytes[report.a as usize..];
    match report.number {
        3 => {
            let name = kind.name();
            refused(
                report,
                &format!("a count of the header ({name}) is out of bounds"),
            )
        }
        6 if record.starts_with(b"MD") => refused(report, mode_reason(kind)),
        number => refused(report, reason(number)),
    }
}

/// What is wrong with a mode.
fn mode_reason(kind: Kind) -> &'static str {
    match kind.has_goals() {
        true => {
            "a mode (MD) names a missing signal, or its goal is out of bounds or does not go with the others"
        }
        false => "a mode (MD) names a missing signal",
    }
}

fn refused(report: Report, reason: &str) -> String {
    format!(
        "refused {}: {reason} (A {}, B {}, count {})",
        report.number, report.a, report.b, report.count
    )
}

fn reason(number: u32) -> &'static str {
    match number {
        1 => "fewer bytes than the due record or its mark needs",
        2 => "wrong mark, or a byte after the end",
        4 => "a field of a link (LK) is out of bounds",
        5 => "a field of a turn (TN) is out of bounds",
        6 => "a signal (SG) has a green link that is not there",
        7 => "the cuts of a link (GR) are out of bounds",
        8 => "an arrival box (AR) is out of bounds",
        9 => "an entry (EN) names a missing cell, mode, signal or next mode",
        10 => "pull sum too high",
        11 => "flow condition fails",
        12 => "cell not safe",
        13 => "rank 0 without goal, or goal without rank 0",
        14 => "successor not listed",
        15 => "successor's rank not lower",
        22 => "an entry (EN) is not above the one before by cell and mode",
        23 => "an entry's (EN) next mode remembers another signal than the entry's",
        24 => "an entry's (EN) next mode has another goal number than its rank asks for",
        _ => "refused",
    }
}

/// What the places of a refusal of 1 to 9 or 22 to 24 mean.
pub fn reading_details(report: Report) -> Vec<String> {
    let what = match report.number {
        1 => "the record that is due starts",
        2 => "the wrong mark, or the first byte after the end, stands",
        _ => "the record starts",
    };
    vec![
        format!("A: {what} at byte {}, counted from 0.", report.a),
        "Nothing can be drawn of a certificate that cannot be read.".to_string(),
    ]
}

/// What the verdict on a certificate that can be read means.
pub fn details(certificate: &Certificate, slice: &Slice, verdict: Verdict) -> Vec<String> {
    let report = verdict.report;
    match report.number {
        0 => vec![
            format!(
                "{} successor cells were looked up; every one is listed, and lower in rank where it must be.",
                report.count
            ),
            overflows(verdict.overflows, certificate.entries.len()),
        ],
        10 => vec![pull_sum(certificate, report)],
        11 => vec![flow_condition(certificate, report)],
        _ => entry_details(certificate, slice, report),
    }
}

/// Under how many of the entries a link may exceed its cap.
fn overflows(count: u64, entries: usize) -> String {
    match count {
        0 => "No arrivals are turned away: under no entry may a link exceed its cap.".to_string(),
        _ => format!(
            "Arrivals may be turned away: under {count} of {entries} entries a link may exceed its cap."
        ),
    }
}

fn pull_sum(certificate: &Certificate, report: Report) -> String {
    let green = certificate.signals[report.a as usize];
    format!(
        "A: signal {} (green links: {}). B: link {}. The sum of share × pull over the turns into link {} \
         from green links is above 10000.",
        report.a,
        green_links(green),
        report.b,
        report.b
    )
}

fn flow_condition(certificate: &Certificate, report: Report) -> String {
    let turn = &certificate.turns[report.a as usize];
    let (from, to) = (&certificate.links[turn.from], &certificate.links[turn.to]);
    format!(
        "A: turn {} from link {} to link {}. 100 × {} (flow of link {}) is above {} (pull) × {} \
         (cap less flow of link {}).",
        report.a,
        turn.from,
        turn.to,
        from.flow,
        turn.from,
        turn.pull,
        to.cap - to.flow,
        turn.to
    )
}

/// The entry that a refusal of 12 to 15 names, what it breaks, and its successor.
fn entry_details(certificate: &Certificate, slice: &Slice, report: Report) -> Vec<String> {
    let Some(place) = refused_entry(certificate, report) else {
        return Vec::new();
    };
    let entry = &certificate.entries[report.a as usize];
    let mut lines = vec![format!(
        "A: entry {} is for {}, with rank {}; {}.",
        report.a,
        cell_words(certificate, place),
        entry.rank,
        outline(slice, place, "solid outline")
    )];
    match report.number {
        12 => {
            let safe = |link: usize| certificate.links[link].safe;
            lines.push(above(certificate, place, "safe", safe));
        }
        13 if entry.rank == 0 => {
            let goal = |link| certificate.goal(place.mode, link);
            let over = above(certificate, place, "goal", goal);
            lines.push(format!("Its rank is 0, but the goal is not met. {over}"));
        }
        13 => {
            lines.push("All its upper edges are at most goal, so its rank must be 0.".to_string())
        }
        _ => {}
    }
    if let Some(successor) = refused_successor(certificate, report) {
        lines.push(format!(
            "B: a step leads to {}; {}; {}.",
            cell_words(certificate, successor),
            listed(certificate, entry, successor),
            outline(slice, successor, "dashed outline")
        ));
    }
    lines
}

/// Is the successor listed, and with which rank?
fn listed(certificate: &Certificate, entry: &Entry, successor: Place) -> String {
    let found = certificate.entries.iter().find(|other| {
        usize::from(other.cell) == successor.cell && usize::from(other.mode) == successor.mode
    });
    match found {
        None => format!("not listed for mode {}", successor.mode),
        Some(other) => format!(
            "its rank {} is not below the entry's rank {}",
            other.rank, entry.rank
        ),
    }
}

/// Which of the cell's upper edges exceed a limit, which is told by link.
fn above(
    certificate: &Certificate,
    place: Place,
    name: &str,
    limit: impl Fn(usize) -> u16,
) -> String {
    let edges = cell_intervals(certificate, place.cell);
    let uppers = edges.iter().map(|interval| interval.high).enumerate();
    let words: Vec<String> = uppers
        .filter(|&(link, upper)| upper > limit(link))
        .map(|(link, upper)| format!("link {link}: {upper} above {name} {}", limit(link)))
        .collect();
    format!("Upper edges over {name}: {}.", words.join(", "))
}

/// A cell by number, mode and intervals.
fn cell_words(certificate: &Certificate, place: Place) -> String {
    let edges = cell_intervals(certificate, place.cell);
    let words: Vec<String> = edges
        .iter()
        .enumerate()
        .map(|(link, interval)| format!("link {link}: {}–{}", interval.low, interval.high))
        .collect();
    format!(
        "cell {} in mode {} ({})",
        place.cell,
        place.mode,
        words.join(", ")
    )
}

/// The interval of each link in a cell.
fn cell_intervals(certificate: &Certificate, cell: usize) -> Vec<Interval> {
    let mut left = cell;
    let mut edges = Vec::new();
    for link in (0..certificate.links.len()).rev() {
        let own = link_intervals(certificate, link);
        edges.push(own[left % own.len()].clone());
        left /= own.len();
    }
    edges.reverse();
    edges
}

fn outline<'a>(slice: &Slice, place: Place, drawn: &'a str) -> &'a str {
    if slice.place(place.cell).is_some() {
        drawn
    } else {
        "not in the drawn slice"
    }
}
