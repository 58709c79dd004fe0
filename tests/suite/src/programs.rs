//! The programs under test, and what they said.

use std::env;
use std::fs::{create_dir_all, read_dir, remove_dir_all, write};
use std::path::{Path, PathBuf};
use std::process::{self, Command, Stdio};
use std::sync::atomic::{AtomicU32, Ordering};

use crate::harness::Told;

const TEN_MINUTES: u32 = 600;
const STRICT: &str = "-Wall -Wextra -Wpedantic -Werror";

/// The repository's folder.
pub fn root() -> PathBuf {
    Path::new(env!("CARGO_MANIFEST_DIR")).join("../..").canonicalize().expect("the repository")
}

/// A program under test: the file that a variable names by an absolute path, else the one that
/// `rt ci` and `rt run` build.
fn under_test(variable: &str, name: &str) -> PathBuf {
    let built = || root().join("crates").join(name).join("out").join(name);
    let program = env::var_os(variable).map_or_else(built, PathBuf::from);
    assert!(program.is_absolute(), "{variable} is not an absolute path: {}", program.display());
    assert!(program.is_file(), "no program {}; build it with: tools/build {name}", program.display());
    program
}

/// The program under test: `TRACE`, or `crates/trace/out/trace`.
pub fn trace() -> PathBuf {
    under_test("TRACE", "trace")
}

/// The program that judges histories: `VERDICT`, or `crates/verdict/out/verdict`.
pub fn verdict() -> PathBuf {
    under_test("VERDICT", "verdict")
}

/// The library under test: `libzeppolecape.a` in the folder that `ZEPPOLECAPE_LIB_DIR` names, or where
/// `make` writes it.
pub fn archive() -> PathBuf {
    let made = || root().join("target/lib");
    let folder = env::var_os("ZEPPOLECAPE_LIB_DIR").map_or_else(made, PathBuf::from);
    let archive = folder.join("libzeppolecape.a");
    assert!(archive.is_file(), "there is no {}; build it with: make", archive.display());
    archive
}

/// A folder of one check's own; it is removed when the value is dropped.
pub struct Scratch(PathBuf);

impl Scratch {
    pub fn make() -> Scratch {
        static NUMBER: AtomicU32 = AtomicU32::new(0);
        let number = NUMBER.fetch_add(1, Ordering::Relaxed);
        let folder = env::temp_dir().join(format!("zeppolecape-{}-{number}", process::id()));
        create_dir_all(&folder).expect("a scratch folder");
        Scratch(folder)
    }

    pub fn path(&self, name: &str) -> PathBuf {
        self.0.join(name)
    }

    /// A file of these bytes.
    pub fn file(&self, name: &str, bytes: &[u8]) -> PathBuf {
        let path = self.path(name);
        write(&path, bytes).expect("a file that can be written");
        path
    }
}

impl Drop for Scratch {
    fn drop(&mut self) {
        let _ = remove_dir_all(&self.0);
    }
}

/// What a program wrote, and how it ended: 124 where it did not end in time.
#[derive(Debug)]
pub struct Said {
    pub status: i32,
    pub out: Vec<u8>,
    pub noise: String,
}

fn run(command: &mut Command) -> Said {
    let output = command.output().expect("a command that can be started");
    Said {
        status: output.status.code().unwrap_or(-1),
        out: output.stdout,
        noise: String::from_utf8_lossy(&output.stderr).into_owned(),
    }
}

impl Said {
    /// What it wrote, where it ended with status 0; else the end of all that it said.
    pub fn content(self) -> Told {
        let out = String::from_utf8_lossy(&self.out);
        if self.status == 0 {
            return Ok(out.into_owned());
        }
        let all: Vec<&str> = out.lines().chain(self.noise.lines()).collect();
        let end = all[all.len().saturating_sub(30)..].join("\n  ");
        Err(format!("  ended with status {}\n  {end}", self.status))
    }
}

/// A line of shell in the repository's folder `$ROOT`, with these names set and at most ten minutes of time.
pub fn plain_shell(line: &str, names: &[(&str, &Path)]) -> Said {
    shell_within(TEN_MINUTES, line, names)
}

fn shell_within(seconds: u32, line: &str, names: &[(&str, &Path)]) -> Said {
    let mut command = Command::new("timeout");
    command.args([&seconds.to_string(), "bash", "-c", line]).env("ROOT", root());
    run(command.current_dir(root()).envs(names.iter().copied()).stdin(Stdio::null()))
}

/// Lines of shell that must all succeed, and what they wrote: `$ARCHIVE` is the library under test, `$WORK` a
/// folder of their own, `$STRICT` asks a compiler for all warnings as errors.
pub fn made(lines: &str) -> Told {
    made_within(TEN_MINUTES, lines)
}

/// The same, with so many seconds of time.
pub fn made_within(seconds: u32, lines: &str) -> Told {
    let (scratch, archive) = (Scratch::make(), archive());
    let names =
        [("ARCHIVE", &*archive), ("WORK", &scratch.path("")), ("STRICT", Path::new(STRICT))];
    shell_within(seconds, &format!("set -eu -o pipefail\n{lines}"), &names).content()
}

/// The last line of what is told.
pub fn last_of(told: Told) -> Told {
    told.map(|said| said.lines().last().unwrap_or_default().to_string())
}

/// The same as `plain_shell`, with the programs under test as `$TRACE` and `$VERDICT`.
pub fn shell(line: &str, names: &[(&str, &Path)]) -> Said {
    let programs = [("TRACE", &*trace()), ("VERDICT", &*verdict())];
    plain_shell(line, &[&programs, names].concat())
}

/// A run in its text form through `tools/runfile` and the program; both must end with status 0 and say nothing.
pub fn run_text(text: &Path) -> Result<Vec<u8>, String> {
    let scratch = Scratch::make();
    let names = [("TEXT", text), ("RUN", &scratch.path("run"))];
    let made = shell("\"$ROOT/tools/runfile\" \"$TEXT\" > \"$RUN\"", &names);
    if (made.status, made.noise.as_str()) != (0, "") {
        return Err(format!("  tools/runfile: status {}, {}", made.status, made.noise));
    }
    let said = shell("exec \"$TRACE\" < \"$RUN\"", &names);
    match (said.status, said.noise.as_str()) {
        (0, "") => Ok(said.out),
        (status, noise) => Err(format!("  the program: status {status}, {noise}")),
    }
}

/// The runs of a folder in their text form, by name; at least one.
pub fn texts(folder: &str) -> Vec<(String, PathBuf)> {
    let folder = root().join(folder);
    let entries = read_dir(&folder).unwrap_or_else(|error| panic!("{}: {error}", folder.display()));
    let mut found: Vec<(String, PathBuf)> = entries
        .map(|entry| entry.expect("an entry").path())
        .filter(|path| path.extension().is_some_and(|extension| extension == "txt"))
        .map(|path| (path.file_stem().unwrap_or_default().to_string_lossy().into_owned(), path))
        .collect();
    assert!(!found.is_empty(), "no runs in {}", folder.display());
    found.sort();
    found
}
