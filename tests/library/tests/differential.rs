//! The library against the second program, a part at a time. Every refusal of every call is met, and how
//! often is told; the calls are all that the library exports.
//!
//!     target/cargo/debug/library-differential PART SEED TIMES     another seed, or longer

use std::collections::BTreeSet;
use std::process::{Command, ExitCode};
use suite::{made, same, Checks, Told, Verdict};

const PARTS: [&str; 7] = ["calls", "sheet", "shelf", "join", "schedules", "serve", "audit"];

/// Calls whose answers `tests/threads/touches.c` counts.
const TOUCHES: [&str; 6] = [
    "zc_plan",
    "zc_plan_start",
    "zc_settle_plan",
    "zc_settle_start",
    "zc_settle_unasked",
    "zc_start_loaded",
];

/// The refusals of documents 01 and 02 that are a call's; 16 is that of a run file.
const REFUSALS: [u32; 20] =
    [10, 11, 12, 13, 14, 15, 30, 31, 32, 33, 34, 40, 41, 42, 43, 44, 45, 46, 47, 48];

fn part(name: &str) -> Told {
    let output = Command::new(env!("CARGO_BIN_EXE_library-differential"))
        .args([name, "1", "1"])
        .output()
        .map_err(|error| error.to_string())?;
    let said = String::from_utf8_lossy(&output.stdout).into_owned();
    match output.status.success() {
        true => Ok(said),
        false => Err(format!("{said}{}{}", String::from_utf8_lossy(&output.stderr), output.status)),
    }
}

/// The archive exports the calls that the parts tell of, and these have all refusals.
fn every_export() -> Verdict {
    let listed = made(r#"nm -g --defined-only "$ARCHIVE" | sed -n 's/.* T \(zc_[a-z_]*\)$/\1/p'"#)?;
    let exported: BTreeSet<&str> = listed.lines().collect();
    let answers = part("answers")?;
    let mut tested: BTreeSet<&str> =
        answers.lines().filter_map(|line| line.split(' ').next()).collect();
    tested.extend(TOUCHES);
    same(exported, tested)?;
    let numbers = answers.split_whitespace().filter_map(|word| word.parse().ok());
    same(BTreeSet::from(REFUSALS), numbers.filter(|number| *number >= 10).collect())
}

fn main() -> ExitCode {
    let mut checks = Checks::of("library");
    for name in PARTS {
        checks.tell(name, move || part(name));
    }
    checks.tell("touches", || {
        made(
            r#"gcc -std=c11 -O2 $STRICT -Iinclude -Ibench -Itests/library tests/threads/touches.c \
                   bench/touch_reference.c "$ARCHIVE" -o "$WORK/touches"
               "$WORK/touches" 200000 1"#,
        )
    });
    checks.add("every call that the library exports is among these", every_export);
    checks.main()
}
