//! Folders of stored cases.

use second::cases::run;
use std::fs;
use std::path::{Path, PathBuf};

/// A folder with these two files.
pub fn folder(name: &str, cases: &str, due: &str) -> PathBuf {
    let folder = Path::new(env!("CARGO_TARGET_TMPDIR")).join(name);
    let _ = fs::remove_dir_all(&folder);
    fs::create_dir_all(&folder).unwrap();
    fs::write(folder.join("x.cases"), cases).unwrap();
    fs::write(folder.join("x.due"), due).unwrap();
    folder
}

/// A certificate that is refused with 3.
pub const EMPTY: &str = "paper e\nend\n";

/// The folder has a fault, which is told by this message.
pub fn malformed(name: &str, cases: &str, due: &str, message: &str) {
    let folder = folder(name, &format!("{EMPTY}{cases}"), due);
    let fault = run(&folder).expect_err(name);
    let place = format!("{}/", folder.display());
    assert_eq!(fault.replace(&place, ""), message, "{name}");
}
