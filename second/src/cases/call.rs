//! The calls of a case.

use crate::text::Words;

/// A lent buffer of a case has at most this many bytes.
const MOST_BUFFER: u64 = 1 << 24;

/// One line of a case; certificates are named.
#[derive(Clone, Debug)]
pub enum Call {
    Fresh,
    State {
        name: String,
        length: Option<usize>,
        mode: u8,
    },
    Load {
        name: String,
    },
    Query {
        scale: u32,
        queues: Vec<u32>,
    },
    Poll {
        bytes: Vec<u8>,
    },
    Write {
        buffer: usize,
        start: usize,
    },
    List {
        name: String,
    },
    Compare {
        first: String,
        second: String,
    },
}

impl Call {
    /// Reads the line of a call.
    pub fn read(words: &mut Words) -> Result<Call, String> {
        // `compare` is read too, but not listed: the message stays as it was before that call.
        let calls = "`fresh`, `state`, `load`, `query`, `poll`, `write` or `list`";
        let before = words.clone();
        let call = match words.take(calls)? {
            "fresh" => Call::Fresh,
            "state" => state(words)?,
            "load" => Call::Load { name: name(words)? },
            "query" => query(words)?,
            "poll" => poll(words)?,
            "write" => write(words)?,
            "list" => Call::List { name: name(words)? },
            "compare" => compare(words)?,
            _ => return before.wrong(calls),
        };
        words.must_end()?;
        Ok(call)
    }

    /// The word under which its due result stands; none if it has no result.
    pub fn result_word(&self) -> Option<&'static str> {
        match self {
            Call::Fresh | Call::State { .. } => None,
            Call::Load { .. } => Some("load"),
            Call::Query { .. } => Some("query"),
            Call::Poll { .. } => Some("poll"),
            Call::Write { .. } => Some("write"),
            Call::List { .. } => Some("list"),
            Call::Compare { .. } => Some("compare"),
        }
    }

    /// The certificates that it names, in the order in which they stand.
    pub fn certificates(&self) -> Vec<&str> {
        match self {
            Call::State { name, .. } | Call::Load { name } | Call::List { name } => vec![name],
            Call::Compare { first, second } => vec![first, second],
            Call::Fresh | Call::Query { .. } | Call::Poll { .. } | Call::Write { .. } => Vec::new(),
        }
    }
}

fn name(words: &mut Words) -> Result<String, String> {
    Ok(words.take("the name of a certificate")?.to_string())
}

fn state(words: &mut Words) -> Result<Call, String> {
    let name = name(words)?;
    let mut length = None;
    if words.takes("length") {
        length = Some(words.number("length", usize::MAX as u64)? as usize);
    }
    words.must_take("mode")?;
    let mode = words.number("mode", 255)? as u8;
    Ok(Call::State { name, length, mode })
}

fn query(words: &mut Words) -> Result<Call, String> {
    let most = u64::from(u32::MAX);
    words.must_take("scale")?;
    let scale = words.number("scale", most)? as u32;
    words.must_take("queues")?;
    let mut queues = Vec::new();
    if words.takes("none") {
        return Ok(Call::Query { scale, queues });
    }
    queues.push(words.number("`none` or a queue", most)? as u32);
    while words.peek().is_some() {
        queues.push(words.number("a queue", most)? as u32);
    }
    Ok(Call::Query { scale, queues })
}

/// Detectors one after the other, or the bytes of the poll as they stand.
fn poll(words: &mut Words) -> Result<Call, String> {
    let mut bytes = Vec::new();
    if words.takes("bytes") {
        if words.peek().is_none() {
            return words.wrong("`none` or a byte of two hexadecimal digits");
        }
        if !words.takes("none") {
            bytes = words.bytes()?;
        }
        return Ok(Call::Poll { bytes });
    }
    let reading = "`fault` or a reading of 16 hexadecimal digits";
    put_detector(&mut bytes, words, &format!("`bytes`, {reading}"))?;
    while words.peek().is_some() {
        put_detector(&mut bytes, words, reading)?;
    }
    Ok(Call::Poll { bytes })
}

/// The nine bytes of a detector: a reading by its bits, or `fault HH`.
fn put_detector(bytes: &mut Vec<u8>, words: &mut Words, expected: &str) -> Result<(), String> {
    if words.takes("fault") {
        bytes.extend([1, words.byte()?, 0, 0, 0, 0, 0, 0, 0]);
    } else {
        bytes.push(0);
        bytes.extend(words.bits(expected)?.to_be_bytes());
    }
    Ok(())
}

fn write(words: &mut Words) -> Result<Call, String> {
    words.must_take("buffer")?;
    let buffer = words.number("buffer", MOST_BUFFER)? as usize;
    words.must_take("start")?;
    let start = words.number("start", usize::MAX as u64)? as usize;
    Ok(Call::Write { buffer, start })
}

fn compare(words: &mut Words) -> Result<Call, String> {
    let first = name(words)?;
    let second = name(words)?;
    Ok(Call::Compare { first, second })
}
