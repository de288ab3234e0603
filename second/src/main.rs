//! Commands of the second checker.

use second::draw::draw;
use second::listing::{listing, refused};
use second::{cases, text};
use std::io::{Read, Write};
use std::path::Path;
use std::process::ExitCode;

const USAGE: &str = "\
usage: second list FILE              list a certificate (exit 0 accepted, 1 refused)
       second draw FILE [LINK LINK]  a picture of a certificate (exit 0 accepted, 1 refused)
       second encode FILE            text of a certificate to bytes
       second decode FILE            bytes of a certificate to text
       second cases DIR              run the stored cases of a folder
       second binary DIR             the stored cases as input of a test program
       second expected DIR           what that program must print
FILE may be `-` for standard input.
";

/// How a command ends badly: what to tell, and the exit code.
struct Failure {
    message: String,
    code: u8,
}

impl Failure {
    fn new(code: u8, message: impl Into<String>) -> Failure {
        let message = message.into();
        Failure { message, code }
    }
}

fn main() -> ExitCode {
    let words: Vec<String> = std::env::args_os()
        .skip(1)
        .map(|word| word.to_string_lossy().into_owned())
        .collect();
    let words: Vec<&str> = words.iter().map(String::as_str).collect();
    let ended = match words[..] {
        ["list", file] => list(file),
        ["draw", file] => picture(file, None),
        ["draw", file, across, up] => {
            two_links(across, up).and_then(|links| picture(file, Some(links)))
        }
        ["encode", file] => encode(file),
        ["decode", file] => decode(file),
        ["cases", folder] => run_cases(folder),
        ["binary", folder] => binary(folder),
        ["expected", folder] => expected(folder),
        _ => Err(Failure::new(2, USAGE.trim_end())),
    };
    match ended {
        Ok(code) => ExitCode::from(code),
        Err(failure) => {
            let _ = writeln!(std::io::stderr(), "{}", failure.message);
            ExitCode::from(failure.code)
        }
    }
}

fn list(file: &str) -> Result<u8, Failure> {
    let (text, verdict) = listing(&read(file)?);
    print(text.as_bytes())?;
    Ok(if verdict.is_accepted() { 0 } else { 1 })
}

/// Two link numbers that differ.
fn two_links(across: &str, up: &str) -> Result<[usize; 2], Failure> {
    let number = |word: &str| {
        let digit = word.bytes().next().filter(|_| word.len() == 1);
        digit.filter(|digit| (b'0'..=b'7').contains(digit))
    };
    match (number(across), number(up)) {
        (Some(across), Some(up)) if across != up => {
            Ok([usize::from(across - b'0'), usize::from(up - b'0')])
        }
        _ => Err(Failure::new(
            2,
            format!("expected two links that differ (numbers from 0 to 7), found `{across} {up}`"),
        )),
    }
}

fn picture(file: &str, links: Option<[usize; 2]>) -> Result<u8, Failure> {
    let drawn = draw(&read(file)?, links);
    let (picture, verdict) = drawn.map_err(|what| Failure::new(2, format!("{file}: {what}")))?;
    print(picture.as_bytes())?;
    Ok(if verdict.is_accepted() { 0 } else { 1 })
}

fn encode(file: &str) -> Result<u8, Failure> {
    let bytes = read(file)?;
    let source = std::str::from_utf8(&bytes).map_err(|error| {
        let before = &bytes[..error.valid_up_to()];
        let line = 1 + before.iter().filter(|&&byte| byte == b'\n').count();
        Failure::new(1, format!("{file}:{line}: expected text in UTF-8"))
    })?;
    let bytes = text::encode(source).map_err(|fault| Failure::new(1, format!("{file}:{fault}")))?;
    print(&bytes)?;
    Ok(0)
}

fn decode(file: &str) -> Result<u8, Failure> {
    match text::decode(&read(file)?) {
        Ok(text) => print(text.as_bytes()).map(|()| 0),
        Err(refusal) => Err(Failure::new(
            1,
            format!("{file}: {}", refused(refusal).trim_end()),
        )),
    }
}

fn run_cases(folder: &str) -> Result<u8, Failure> {
    let outcome = cases::run(Path::new(folder)).map_err(|what| Failure::new(1, what))?;
    for mismatch in &outcome.mismatches {
        print(format!("{mismatch}\n").as_bytes())?;
    }
    let (agreed, calls, cases) = (outcome.agreed(), outcome.calls, outcome.cases);
    print(format!("{agreed} of {calls} calls in {cases} cases agreed\n").as_bytes())?;
    Ok(if outcome.mismatches.is_empty() { 0 } else { 1 })
}

fn binary(folder: &str) -> Result<u8, Failure> {
    let stream = cases::stream(Path::new(folder)).map_err(|what| Failure::new(1, what))?;
    print(&stream).map(|()| 0)
}

fn expected(folder: &str) -> Result<u8, Failure> {
    let text = cases::expected(Path::new(folder)).map_err(|what| Failure::new(1, what))?;
    print(text.as_bytes()).map(|()| 0)
}

/// All bytes of a file, or of standard input.
fn read(file: &str) -> Result<Vec<u8>, Failure> {
    let mut bytes = Vec::new();
    let done = if file == "-" {
        std::io::stdin().read_to_end(&mut bytes).map(|_| ())
    } else {
        std::fs::read(file).map(|read| bytes = read)
    };
    done.map_err(|error| Failure::new(2, format!("{file}: cannot be read: {error}")))?;
    Ok(bytes)
}

/// Prints all bytes on standard output.
fn print(bytes: &[u8]) -> Result<(), Failure> {
    let mut out = std::io::stdout();
    out.write_all(bytes)
        .and_then(|()| out.flush())
        .map_err(|error| Failure::new(3, format!("cannot print: {error}")))
}
