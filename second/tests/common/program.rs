//! Running the program as a user does.

use std::io::Write;
use std::process::{Command, Output, Stdio};

/// Runs a command with this standard input.
pub fn second(words: &[&str], input: &[u8]) -> Output {
    let mut child = Command::new(env!("CARGO_BIN_EXE_second"))
        .args(words)
        .stdin(Stdio::piped())
        .stdout(Stdio::piped())
        .stderr(Stdio::piped())
        .spawn()
        .unwrap();
    // A command that does not read its input may have ended already.
    let _ = child.stdin.take().unwrap().write_all(input);
    child.wait_with_output().unwrap()
}

/// The command ends with this exit code and prints this.
pub fn ends(words: &[&str], input: &[u8], code: i32, out: &[u8], error: &str) {
    let output = second(words, input);
    assert_eq!(output.status.code(), Some(code), "{words:?}");
    assert_eq!(output.stdout, out, "{words:?}");
    assert_eq!(String::from_utf8_lossy(&output.stderr), error, "{words:?}");
}

/// The command ends with code 2 and prints nothing but a message with these words.
pub fn ends_with_2(words: &[&str], input: &[u8], message: &str) {
    let output = second(words, input);
    assert_eq!(output.status.code(), Some(2), "{words:?}");
    assert!(output.stdout.is_empty(), "{words:?}");
    let told = String::from_utf8_lossy(&output.stderr);
    assert!(told.contains(message), "{words:?}: {told}");
}
