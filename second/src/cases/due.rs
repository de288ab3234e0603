//! Reading a `.due` file.

use super::stored::Numbered;
use crate::comparing::Comparison;
use crate::report::{Report, Verdict};
use crate::text::{Fault, Words};
use std::fmt;

/// The greatest number of a due result: documents 01 and 02 have refusals 1 to 28 in all. Those that no call gives yet
/// are taken too, so that their cases can be stored before the call is built.
const MOST_NUMBER: u64 = 28;

/// What a call must answer.
#[derive(Clone, Debug, PartialEq, Eq)]
pub enum Due {
    Load {
        verdict: Verdict,
        mode: u8,
        length: usize,
    },
    Query(Shown),
    Poll(Shown),
    Write {
        report: Report,
        /// The certificate that the buffer holds and where it starts; none if the buffer is kept.
        holds: Option<(String, usize)>,
    },
    List {
        text: String,
    },
    Compare {
        report: Report,
        word: &'static str,
    },
}

/// What a query or a poll answers, and the next state's mode.
#[derive(Clone, Debug, PartialEq, Eq)]
pub struct Shown {
    pub report: Report,
    pub signal: u8,
    pub green: u8,
    pub mode: u8,
}

/// A case and its due results.
pub struct DueCase {
    pub name: String,
    pub line: usize,
    pub results: Vec<Numbered<Due>>,
}

/// Reads one file.
pub fn read_due(text: &str) -> Result<Vec<DueCase>, Fault> {
    let mut cases: Vec<DueCase> = Vec::new();
    for (index, raw) in text.lines().enumerate() {
        let line = index + 1;
        let words = Words::of(raw);
        let result = match raw.trim_start().strip_prefix('|') {
            Some(listed) => add_listed(&mut cases, listed),
            None if words.peek().is_some() => add_line(&mut cases, line, words),
            None => Ok(()),
        };
        result.map_err(|what| Fault::new(line, what))?;
    }
    Ok(cases)
}

/// A line of a listing, which stands behind `| `.
fn add_listed(cases: &mut [DueCase], listed: &str) -> Result<(), String> {
    let last = cases.last_mut().and_then(|case| case.results.last_mut());
    match (
        last.map(|result| &mut result.said),
        listed.strip_prefix(' '),
    ) {
        (Some(Due::List { text }), Some(listed)) => {
            *text += &format!("{listed}\n");
            Ok(())
        }
        (Some(Due::List { .. }), None) => Err("expected `| ` before a listed line".to_string()),
        _ => Err("expected a `list` line before listed lines".to_string()),
    }
}

/// A `case` line, or the result of a call.
fn add_line(cases: &mut Vec<DueCase>, line: usize, mut words: Words) -> Result<(), String> {
    let text = words.text();
    if words.takes("case") {
        let name = words.take("a name")?.to_string();
        let results = Vec::new();
        cases.push(DueCase {
            name,
            line,
            results,
        });
        return words.must_end();
    }
    let Some(case) = cases.last_mut() else {
        return words.wrong("`case`");
    };
    let said = read_result(&mut words)?;
    case.results.push(Numbered { line, text, said });
    Ok(())
}

/// Reads the result of one call; listed lines follow on lines of their own.
fn read_result(words: &mut Words) -> Result<Due, String> {
    let due = if words.takes("load") {
        read_load(words)?
    } else if words.takes("query") {
        Due::Query(read_shown(words)?)
    } else if words.takes("poll") {
        Due::Poll(read_shown(words)?)
    } else if words.takes("write") {
        read_write(words)?
    } else if words.takes("list") {
        let text = String::new();
        Due::List { text }
    } else if words.takes("compare") {
        read_comparison(words)?
    } else {
        return words.wrong("`case`, `load`, `query`, `poll`, `write`, `list` or `compare`");
    };
    words.must_end()?;
    Ok(due)
}

fn read_load(words: &mut Words) -> Result<Due, String> {
    let verdict = read_verdict(words)?;
    let mode = read_byte(words, "mode")?;
    let length = read_size(words, "length")?;
    Ok(Due::Load {
        verdict,
        mode,
        length,
    })
}

/// A report; an acceptance also has how many entries may overflow.
fn read_verdict(words: &mut Words) -> Result<Verdict, String> {
    let report = read_report(words)?;
    let mut overflows = 0;
    if report.number == 0 {
        words.must_take("overflow")?;
        overflows = words.number("how many entries may overflow", u64::MAX)?;
    }
    Ok(Verdict { report, overflows })
}

fn read_shown(words: &mut Words) -> Result<Shown, String> {
    let report = read_report(words)?;
    let signal = read_byte(words, "signal")?;
    words.must_take("green")?;
    let green = words.byte()?;
    let mode = read_byte(words, "mode")?;
    Ok(Shown {
        report,
        signal,
        green,
        mode,
    })
}

fn read_write(words: &mut Words) -> Result<Due, String> {
    let report = read_report(words)?;
    let mut holds = None;
    if words.takes("holds") {
        let name = words.take("the name of a certificate")?.to_string();
        holds = Some((name, read_size(words, "from")?));
    } else if !words.takes("kept") {
        return words.wrong("`holds` or `kept`");
    }
    Ok(Due::Write { report, holds })
}

/// A report, then the word of the answer; a refusal has a word of its own.
fn read_comparison(words: &mut Words) -> Result<Due, String> {
    let report = read_report(words)?;
    let is_refusal = report.number != 0;
    let expected = match is_refusal {
        false => "`equal`, `first`, `second` or `neither`",
        true => "`refused`",
    };
    let word = words.parse(expected, |word| {
        let known = Comparison::WORDS.into_iter().find(|known| *known == word);
        known.filter(|&known| (known == "refused") == is_refusal)
    })?;
    Ok(Due::Compare { report, word })
}

fn read_report(words: &mut Words) -> Result<Report, String> {
    Ok(Report {
        number: words.number("the result's number", MOST_NUMBER)? as u32,
        a: words.number("place A", u64::MAX)?,
        b: words.number("place B", u64::MAX)?,
        count: words.number("the count", u64::MAX)?,
    })
}

/// A name and the number of one byte.
fn read_byte(words: &mut Words, name: &str) -> Result<u8, String> {
    words.must_take(name)?;
    Ok(words.number(name, 255)? as u8)
}

/// A name and a number of bytes.
fn read_size(words: &mut Words, name: &str) -> Result<usize, String> {
    words.must_take(name)?;
    Ok(words.number(name, usize::MAX as u64)? as usize)
}

impl Due {
    /// The word under which it stands.
    pub fn word(&self) -> &'static str {
        match self {
            Due::Load { .. } => "load",
            Due::Query(_) => "query",
            Due::Poll(_) => "poll",
            Due::Write { .. } => "write",
            Due::List { .. } => "list",
            Due::Compare { .. } => "compare",
        }
    }
}

impl fmt::Display for Due {
    fn fmt(&self, out: &mut fmt::Formatter<'_>) -> fmt::Result {
        match self {
            Due::Load {
                verdict,
                mode,
                length,
            } => write!(out, "load {verdict} mode {mode} length {length}"),
            Due::Query(shown) | Due::Poll(shown) => write!(
                out,
                "{} {} signal {} green {:02X} mode {}",
                self.word(),
                shown.report,
                shown.signal,
                shown.green,
                shown.mode
            ),
            Due::Write { report, holds } => match holds {
                Some((name, start)) => write!(out, "write {report} holds {name} from {start}"),
                None => write!(out, "write {report} kept"),
            },
            Due::List { text } => write!(out, "list {text:?}"),
            Due::Compare { report, word } => write!(out, "compare {report} {word}"),
        }
    }
}
