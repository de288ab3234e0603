//! Reading a folder of stored cases, and pairing calls with due results.

use super::call::Call;
use super::due::{read_due, Due, DueCase};
use super::stored::{read_cases, Case, Certificates, Numbered};
use std::collections::HashSet;
use std::fs;
use std::path::{Path, PathBuf};

/// A call with its due result; none for `fresh` and `state`.
pub struct Paired {
    pub call: Numbered<Call>,
    pub due: Option<Due>,
}

/// A case ready to run.
pub struct Ready {
    pub file: String,
    pub name: String,
    pub calls: Vec<Paired>,
}

/// Everything a folder holds.
pub struct Folder {
    pub certificates: Certificates,
    pub cases: Vec<Ready>,
}

/// One pair of files.
struct Pair {
    cases_file: String,
    due_file: String,
    cases: Vec<Case>,
    dues: Vec<DueCase>,
}

/// Reads all files in the order of their names; the first fault ends it, and so does a folder without any case.
pub fn read_folder(folder: &Path) -> Result<Folder, String> {
    let mut certificates = Certificates::new();
    let mut pairs = Vec::new();
    for path in files(folder, "cases")? {
        pairs.push(read_pair(&path, &mut certificates)?);
    }
    for path in files(folder, "due")? {
        if !path.with_extension("cases").exists() {
            return Err(format!(
                "{}:1: expected a .cases file of this name",
                path.display()
            ));
        }
    }
    let mut names = HashSet::new();
    let mut cases = Vec::new();
    for pair in pairs {
        cases.extend(pair_cases(pair, &certificates, &mut names)?);
    }
    if cases.is_empty() {
        return Err(format!("{}: no case was found", folder.display()));
    }
    Ok(Folder {
        certificates,
        cases,
    })
}

/// The files with this ending, in the order of their names.
fn files(folder: &Path, ending: &str) -> Result<Vec<PathBuf>, String> {
    let cannot = |error| format!("{}: cannot be read: {error}", folder.display());
    let mut paths = Vec::new();
    for entry in fs::read_dir(folder).map_err(cannot)? {
        let path = entry.map_err(cannot)?.path();
        if path.extension().is_some_and(|own| own == ending) {
            paths.push(path);
        }
    }
    paths.sort();
    Ok(paths)
}

fn read_text(path: &Path) -> Result<String, String> {
    fs::read_to_string(path).map_err(|error| format!("{}: cannot be read: {error}", path.display()))
}

fn read_pair(path: &Path, certificates: &mut Certificates) -> Result<Pair, String> {
    let cases_file = path.display().to_string();
    let cases = read_cases(&read_text(path)?, certificates)
        .map_err(|fault| format!("{cases_file}:{fault}"))?;
    let due_path = path.with_extension("due");
    let due_file = due_path.display().to_string();
    let dues = if cases.is_empty() && !due_path.exists() {
        Vec::new()
    } else {
        read_due(&read_text(&due_path)?).map_err(|fault| format!("{due_file}:{fault}"))?
    };
    Ok(Pair {
        cases_file,
        due_file,
        cases,
        dues,
    })
}

/// Pairs the cases of one file; every case needs its due results, and the reverse.
fn pair_cases(
    pair: Pair,
    certificates: &Certificates,
    names: &mut HashSet<String>,
) -> Result<Vec<Ready>, String> {
    let (file, due_file) = (&pair.cases_file, &pair.due_file);
    let mut ready = Vec::new();
    let mut dues = pair.dues.into_iter();
    for case in pair.cases {
        let (line, name) = (case.line, case.name.clone());
        if !names.insert(name.clone()) {
            return Err(format!(
                "{file}:{line}: expected a new name, found case `{name}` again"
            ));
        }
        let due = dues.next();
        let due = due.ok_or_else(|| format!("{file}:{line}: case {name} has no due result"))?;
        if due.name != name {
            return Err(format!(
                "{due_file}:{}: expected case {name}, found case {}",
                due.line, due.name
            ));
        }
        let calls = pair_calls(case, due, certificates, file, due_file)?;
        let file = file.clone();
        ready.push(Ready { file, name, calls });
    }
    match dues.next() {
        Some(due) => Err(format!(
            "{due_file}:{}: case {} is not in {file}",
            due.line, due.name
        )),
        None => Ok(ready),
    }
}

/// Pairs the calls of one case, and finds every certificate that they name.
fn pair_calls(
    case: Case,
    due: DueCase,
    certificates: &Certificates,
    file: &str,
    due_file: &str,
) -> Result<Vec<Paired>, String> {
    let mut paired = Vec::new();
    let mut results = due.results.into_iter();
    for call in case.calls {
        let line = call.line;
        for name in call.said.certificates() {
            known(certificates, name, file, line)?;
        }
        let due = match call.said.result_word() {
            None => None,
            Some(word) => {
                let missing = || format!("{file}:{line}: `{}` has no due result", call.text);
                let result = results.next().ok_or_else(missing)?;
                check_result(&result, word, certificates, due_file)?;
                Some(result.said)
            }
        };
        paired.push(Paired { call, due });
    }
    if let Some(result) = results.next() {
        return Err(format!(
            "{due_file}:{}: `{}` has no call",
            result.line, result.text
        ));
    }
    if paired.iter().all(|pair| pair.due.is_none()) {
        return Err(format!(
            "{file}:{}: case {} has no call with a result",
            case.line, case.name
        ));
    }
    Ok(paired)
}

/// A due result stands under the word of its call and names a known certificate.
fn check_result(
    result: &Numbered<Due>,
    word: &str,
    certificates: &Certificates,
    due_file: &str,
) -> Result<(), String> {
    if result.said.word() != word {
        return Err(format!(
            "{due_file}:{}: expected the result of a {word}, found `{}`",
            result.line, result.text
        ));
    }
    match &result.said {
        Due::Write {
            holds: Some((name, _)),
            ..
        } => known(certificates, name, due_file, result.line),
        _ => Ok(()),
    }
}

/// A certificate that is named must be there.
fn known(certificates: &Certificates, name: &str, file: &str, line: usize) -> Result<(), String> {
    match certificates.contains_key(name) {
        true => Ok(()),
        false => Err(format!("{file}:{line}: expected a `paper {name}`")),
    }
}
