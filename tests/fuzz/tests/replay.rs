//! The inputs that the fuzzer kept, each carried out again, and random ones from a seed.

use fuzz::{carry_out, random};
use std::fs::{read, read_dir};
use std::path::Path;

/// Every input kept for a target; there is at least one.
fn replay(name: &str) {
    let folder = Path::new(env!("CARGO_MANIFEST_DIR")).join("corpus").join(name);
    let mut paths: Vec<_> =
        read_dir(&folder).expect("a folder").map(|entry| entry.expect("an entry").path()).collect();
    paths.sort();
    assert!(!paths.is_empty(), "nothing in {}", folder.display());
    for path in paths {
        carry_out(name, &path.to_string_lossy(), &read(&path).expect("a file"));
    }
}

#[test]
fn tables_kept() {
    replay("tables");
}

#[test]
fn owned_kept() {
    replay("owned");
}

#[test]
fn runs_kept() {
    replay("runs");
}

#[test]
fn histories_kept() {
    replay("histories");
}

/// Lent tables of any contents, by the Rust crate.
#[test]
fn tables_random() {
    random("tables", 100_000);
}

/// Calls in any order on the queues that the Rust crate owns.
#[test]
fn owned_random() {
    random("owned", 10_000);
}
