//! The programs under test, run on an input.

use std::io::Write;
use std::path::{Path, PathBuf};
use std::process::{Command, Stdio};

/// What a program wrote, and whether it ended with status 0.
#[derive(Debug, PartialEq, Eq)]
pub struct Said {
    pub out: Vec<u8>,
    pub noise: String,
    pub well: bool,
}

/// `crates/NAME/out/NAME`, or what the variable of its name in capitals says, an absolute path.
fn program(name: &str) -> PathBuf {
    let crates = Path::new(env!("CARGO_MANIFEST_DIR")).join("../../crates");
    let built = crates.join(name).join("out").join(name);
    let program = std::env::var_os(name.to_uppercase()).map_or(built, PathBuf::from);
    assert!(program.is_file(), "no program {}; build it with: tools/build {name}", program.display());
    program
}

/// Runs it with these bytes as its standard input.
pub fn said(name: &str, input: &[u8]) -> Said {
    let mut child = Command::new(program(name))
        .stdin(Stdio::piped())
        .stdout(Stdio::piped())
        .stderr(Stdio::piped())
        .spawn()
        .expect("a program that can be started");
    let mut stdin = child.stdin.take().expect("a pipe");
    let bytes = input.to_vec();
    // It may stop reading early, at a malformed place.
    let feed = std::thread::spawn(move || drop(stdin.write_all(&bytes)));
    let output = child.wait_with_output().expect("a program that ends");
    feed.join().expect("a pipe");
    let noise = String::from_utf8_lossy(&output.stderr).into_owned();
    Said { out: output.stdout, noise, well: output.status.success() }
}
