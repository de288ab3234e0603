//! `bin/draw` and `bin/decode`, as a user runs them.

mod common;

use common::{l_with, L};
use std::fs;
use std::path::{Path, PathBuf};
use std::process::{Command, Output};

fn script(name: &str, words: &[&str]) -> Output {
    let path = Path::new(env!("CARGO_MANIFEST_DIR"))
        .join("../bin")
        .join(name);
    Command::new("bash").arg(path).args(words).output().unwrap()
}

/// A file with these bytes.
fn file(name: &str, bytes: &[u8]) -> PathBuf {
    let path = Path::new(env!("CARGO_TARGET_TMPDIR")).join(name);
    fs::write(&path, bytes).unwrap();
    path
}

/// The script ends with this exit code and prints something on one side only.
fn ends(name: &str, words: &[&str], code: i32, prints: bool) -> Output {
    let output = script(name, words);
    let told = String::from_utf8_lossy(&output.stderr);
    assert_eq!(output.status.code(), Some(code), "{name} {words:?}: {told}");
    assert_eq!(!output.stdout.is_empty(), prints, "{name} {words:?}");
    assert_eq!(told.is_empty(), prints, "{name} {words:?}: {told}");
    output
}

#[test]
fn draw() {
    let accepted = file("scripts-l", &L);
    let refused = file("scripts-refused", &l_with("safe 10", "safe 9"));
    let unread = file("scripts-short", &L[..65]);
    let [accepted, refused, unread] =
        [&accepted, &refused, &unread].map(|path| path.to_str().unwrap());
    let picture = ends("draw", &[accepted], 0, true).stdout;
    assert_eq!(picture, second::draw::draw(&L, None).unwrap().0.as_bytes());
    ends("draw", &[refused], 1, true);
    ends("draw", &[unread], 1, true);
    ends("draw", &[accepted, "0", "1"], 2, false);
    ends("draw", &[accepted, "0", "x"], 2, false);
    ends("draw", &["no/such/file"], 2, false);
    ends("draw", &[env!("CARGO_MANIFEST_DIR")], 2, false);
    for words in [&[][..], &[accepted, "0"], &[accepted, "0", "1", "2"]] {
        let told = ends("draw", words, 2, false).stderr;
        assert_eq!(told, b"usage: bin/draw FILE [LINK LINK] > PICTURE\n");
    }
}

#[test]
fn decode() {
    let whole = file("scripts-whole", &L);
    let unread = file("scripts-cut", &L[..65]);
    let [whole, unread] = [&whole, &unread].map(|path| path.to_str().unwrap());
    let text = ends("decode", &[whole], 0, true).stdout;
    assert_eq!(text, second::text::decode(&L).unwrap().as_bytes());
    let told = ends("decode", &[unread], 1, false).stderr;
    assert_eq!(told, format!("{unread}: refused 1 64 0 0\n").as_bytes());
    ends("decode", &["no/such/file"], 2, false);
    for words in [&[][..], &[whole, whole]] {
        let told = ends("decode", words, 2, false).stderr;
        assert_eq!(told, b"usage: bin/decode FILE > TEXT\n");
    }
}
