//! Builds `c/inline.c` with a compiler and runs it.

use std::path::{Path, PathBuf};
use std::process::{Command, Output};
use std::{env, fs, process};

/// What no header may be warned of; a warning is an error.
pub const WARNINGS: [&str; 5] = ["-Wall", "-Wextra", "-Wpedantic", "-Wconversion", "-Werror"];
/// Faults that the sanitizers see end the program.
pub const SANITIZED: [&str; 3] =
    ["-fsanitize=address,undefined", "-fno-sanitize-recover=all", "-g"];

/// The repository's folder.
pub fn root() -> PathBuf {
    Path::new(env!("CARGO_MANIFEST_DIR")).join("../..").canonicalize().expect("the repository")
}

/// The library: `ZEPPOLECAPE_LIB_DIR`'s, else the one that `make` writes.
fn archive() -> PathBuf {
    let folder =
        env::var_os("ZEPPOLECAPE_LIB_DIR").map_or_else(|| root().join("target/lib"), PathBuf::from);
    folder.join("libzeppolecape.a")
}

/// The headers: `HEADERS`, an absolute path, else the repository's.
fn headers() -> PathBuf {
    env::var_os("HEADERS").map_or_else(|| root().join("include"), PathBuf::from)
}

/// A compiler with the options that a test asks for.
pub fn compiler(name: &str, standard: &str, more: &[&str]) -> Command {
    let mut command = Command::new(name);
    if standard.starts_with("c++") {
        command.args(["-x", "c++", "-Wold-style-cast"]);
    }
    command.arg(format!("-std={standard}")).args(WARNINGS).args(more).arg("-I").arg(headers());
    command
}

/// What a command said; it must end well.
pub fn done(command: &mut Command) -> String {
    let Output { status, stdout, stderr } =
        command.output().expect("a command that can be started");
    let said = format!("{}{}", String::from_utf8_lossy(&stdout), String::from_utf8_lossy(&stderr));
    assert!(status.success(), "{command:?} ends with {status}\n{said}");
    said
}

/// A program of the inline functions, which is removed when the value is dropped.
pub struct Program(PathBuf);

impl Program {
    pub fn built(name: &str, standard: &str, more: &[&str]) -> Program {
        let file = format!("zeppolecape-inline-{}-{name}-{standard}-{}", process::id(), more.len());
        let program = Program(env::temp_dir().join(file));
        let mut command = compiler(name, standard, more);
        for folder in ["tests/library", "bench"] {
            command.arg("-I").arg(root().join(folder));
        }
        command.arg(root().join("tests/helpers/c/inline.c"));
        command.args(["-x", "none"]).arg(archive()).arg("-o").arg(&program.0);
        done(&mut command);
        program
    }

    pub fn path(&self) -> &Path {
        &self.0
    }

    pub fn run(&self, words: &[&str]) -> String {
        done(Command::new(&self.0).args(words))
    }

    /// So many rounds from a seed; something is compared, and nothing differs.
    pub fn holds(&self, rounds: &str, seed: &str) {
        counted(&self.run(&[rounds, seed]));
    }
}

impl Drop for Program {
    fn drop(&mut self) {
        let _ = fs::remove_file(&self.0);
    }
}

/// The last line: `N passed, 0 failed`.
pub fn counted(said: &str) {
    let last = said.lines().last().unwrap_or_default();
    let passed = last.strip_suffix(" passed, 0 failed").and_then(|count| count.parse::<u64>().ok());
    assert!(passed.is_some_and(|count| count > 0), "{said}");
}
