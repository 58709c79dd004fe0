//! The library from C and C++: its headers, programs that count for themselves, the same calls by hand
//! beside it, threads, examples, and projects on an installed library. `PART: NAME` is a check's name:
//! `cargo test -p library --test drivers program:` runs one part.

mod headers;
mod threads;
mod uses;

use std::fs::{read_dir, read_to_string};
use std::process::ExitCode;
use suite::{last_of, made, made_within, root, Checks};

/// Programs that compare the library with the same calls by hand: the sources, and the words of its run.
const BY_HAND: [(&str, &str, &str); 2] = [
    ("shelves", "tests/library/shelf.c bench/reference.c bench/shelf_reference.c", "20000 1"),
    ("joinings", "tests/library/join.c bench/reference.c bench/join_reference.c", "20000 1"),
];

/// The benchmark's own test: answers, and what is counted.
const BENCHMARK: &str = r#"bench/run.sh --check "$(dirname "$ARCHIVE")""#;

fn by_hand(checks: &mut Checks) {
    checks.tell("by hand: every call, and the figures of bench/facts.txt", || made(BENCHMARK));
    checks.long("by hand: every call, at length", || {
        last_of(made_within(3_600, &format!("LONG=1 {BENCHMARK}")))
    });
    for (name, sources, words) in BY_HAND {
        checks.tell(&format!("by hand: {name}"), move || {
            last_of(made(&format!(
                r#"gcc -std=gnu11 -O2 -Iinclude -Ibench {sources} "$ARCHIVE" -o "$WORK/program"
                   "$WORK/program" {words}"#
            )))
        });
    }
}

/// Every `tests/library/NAME.c` with a main that is linked with the library alone.
fn programs(checks: &mut Checks) {
    let folder = root().join("tests/library");
    let mut names: Vec<String> = read_dir(&folder)
        .expect("the folder of the tests")
        .map(|entry| entry.expect("an entry").path())
        .filter(|path| path.extension().is_some_and(|end| end == "c"))
        .filter(|path| read_to_string(path).is_ok_and(|text| text.contains("\nint main")))
        .map(|path| path.file_stem().unwrap_or_default().to_string_lossy().into_owned())
        .filter(|name| {
            !BY_HAND.iter().any(|(_, sources, _)| sources.contains(&format!("/{name}.c ")))
        })
        .collect();
    names.sort();
    assert!(names.len() >= 7, "the programs of tests/library: {names:?}");
    for name in names {
        checks.tell(&format!("program: {name}"), move || {
            last_of(made(&format!(
                r#"gcc -std=c11 $STRICT -Iinclude -Ibench tests/library/{name}.c "$ARCHIVE" -o "$WORK/program"
                   "$WORK/program""#
            )))
        });
    }
}

fn main() -> ExitCode {
    let mut checks = Checks::of("drivers");
    threads::threads(&mut checks);
    uses::examples(&mut checks);
    uses::projects(&mut checks);
    by_hand(&mut checks);
    programs(&mut checks);
    headers::headers(&mut checks);
    checks.main()
}
