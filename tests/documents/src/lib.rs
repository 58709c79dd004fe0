//! The documents, and what of the repository they may name.

pub mod layers;
mod names;
mod prose;

pub use names::{Names, TOPS};
pub use prose::{code_lines, sentences, spans, without_code};

use std::fs;
use std::path::{Path, PathBuf};

pub fn root() -> PathBuf {
    Path::new(env!("CARGO_MANIFEST_DIR")).join("../..").canonicalize().expect("the repository")
}

/// Every file of the repository that is not built, as a path from its root.
pub fn files() -> Vec<String> {
    let mut found = Vec::new();
    let mut open = vec![root()];
    while let Some(folder) = open.pop() {
        for entry in fs::read_dir(&folder).expect("a folder").flatten() {
            let (path, name) = (entry.path(), entry.file_name());
            let name = name.to_string_lossy();
            if path.is_dir() {
                if !["target", "out", ".git", "log", "build"].contains(&&*name) {
                    open.push(path);
                }
            } else {
                found
                    .push(path.strip_prefix(root()).expect("below the root").display().to_string());
            }
        }
    }
    found.sort();
    found
}

pub fn is_document(path: &str) -> bool {
    path.ends_with(".md")
}

/// The content of a file; of one that is no text, nothing.
pub fn content(path: &str) -> String {
    fs::read_to_string(root().join(path)).unwrap_or_default()
}

/// What may stand in backticks though it is not in the repository, and why: `tests/documents/allowed.txt`.
pub fn allowed() -> Vec<(String, String)> {
    let text = content("tests/documents/allowed.txt");
    let entries = text.lines().filter(|line| !line.is_empty() && !line.starts_with('#'));
    entries
        .map(|line| {
            let (words, reason) = line.split_once("  ").unwrap_or((line, ""));
            (words.trim().to_string(), reason.trim().to_string())
        })
        .collect()
}
