//! Reading a `.cases` file.

use super::call::Call;
use super::change::Body;
use crate::text::{numbered_lines, records_of, records_of_line, Fault, Record, Words};
use std::collections::HashMap;

/// A stored certificate and its bytes.
pub struct Stored {
    body: Body,
    pub bytes: Vec<u8>,
}

/// Certificates of all files by name.
pub type Certificates = HashMap<String, Stored>;

/// A line of a file: its number, its words as they stand, and what they say.
#[derive(Clone, Debug)]
pub struct Numbered<T> {
    pub line: usize,
    pub text: String,
    pub said: T,
}

/// A case and its calls.
pub struct Case {
    pub name: String,
    pub line: usize,
    pub calls: Vec<Numbered<Call>>,
}

/// What the lines below a `paper` or `case` line belong to.
enum Section {
    None,
    Text(Vec<Record>),
    Changes(Body),
    Case(Vec<Numbered<Call>>),
}

/// Reads one file; adds its certificates to those read before and tells its cases.
pub fn read_cases(text: &str, certificates: &mut Certificates) -> Result<Vec<Case>, Fault> {
    let mut reading = Reading {
        certificates,
        cases: Vec::new(),
        section: Section::None,
        name: String::new(),
        start: 1,
    };
    for (line, mut words) in numbered_lines(text) {
        let result = match words.peek() {
            Some("paper") | Some("case") => {
                reading.close()?;
                reading.open(line, &mut words)
            }
            _ => reading.line(line, &mut words),
        };
        result.map_err(|what| Fault::new(line, what))?;
    }
    reading.close()?;
    Ok(reading.cases)
}

struct Reading<'a> {
    certificates: &'a mut Certificates,
    cases: Vec<Case>,
    section: Section,
    /// Name and first line of the section.
    name: String,
    start: usize,
}

impl Reading<'_> {
    /// A `paper` or `case` line.
    fn open(&mut self, line: usize, words: &mut Words) -> Result<(), String> {
        let is_case = words.take("`paper` or `case`")? == "case";
        self.name = words.take("a name")?.to_string();
        self.start = line;
        if is_case {
            self.section = Section::Case(Vec::new());
            return words.must_end();
        }
        if self.certificates.contains_key(&self.name) {
            return Err(format!("expected a new name, found `{}` again", self.name));
        }
        self.section = Section::Text(Vec::new());
        if words.takes("from") {
            let other = words.take("the name of a certificate")?;
            match self.certificates.get(other) {
                Some(stored) => self.section = Section::Changes(stored.body.clone()),
                None => return Err(format!("expected an earlier `paper {other}`")),
            }
        }
        words.must_end()
    }

    /// Any other line.
    fn line(&mut self, line: usize, words: &mut Words) -> Result<(), String> {
        match &mut self.section {
            Section::None => return words.wrong("`paper` or `case`"),
            Section::Text(records) => records.extend(records_of_line(words)?),
            Section::Changes(body) => body.change(words)?,
            Section::Case(calls) => {
                let text = words.text();
                let said = Call::read(words)?;
                calls.push(Numbered { line, text, said });
            }
        }
        Ok(())
    }

    /// Ends the section: keeps its case or certificate.
    fn close(&mut self) -> Result<(), Fault> {
        let name = self.name.clone();
        let body = match std::mem::replace(&mut self.section, Section::None) {
            Section::None => return Ok(()),
            Section::Case(calls) => {
                let line = self.start;
                self.cases.push(Case { name, line, calls });
                return Ok(());
            }
            Section::Text(records) => records_of(records).map(Body::Records),
            Section::Changes(body) => Ok(body),
        };
        let stored = body.and_then(|body| {
            let bytes = body.bytes()?;
            Ok(Stored { body, bytes })
        });
        match stored {
            Ok(stored) => self.certificates.insert(name, stored),
            Err(what) => return Err(Fault::new(self.start, format!("paper {name}: {what}"))),
        };
        Ok(())
    }
}
