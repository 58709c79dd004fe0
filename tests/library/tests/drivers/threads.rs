//! Threads on one queue, through `zeppolecape_atomic.h` (tests/threads): some seconds each, and with
//! `--ignored --test-threads 1 threads:` an hour.

use suite::{last_of, made_within, Checks, Told};

/// Compiles a program of tests/threads and runs it; `tsan` asks for ThreadSanitizer.
fn run(name: &str, tsan: bool, words: &str) -> Told {
    let sanitizer = if tsan { "-fsanitize=thread" } else { "" };
    let lines = format!(
        r#"g++ -std=c++17 -O2 -g $STRICT -Wconversion -Wold-style-cast {sanitizer} -Iinclude tests/threads/{name}.cc \
               "$ARCHIVE" -pthread -o "$WORK/program"
           TSAN_OPTIONS=halt_on_error=1 "$WORK/program" {words}"#
    );
    last_of(made_within(3_600, &lines))
}

pub fn threads(checks: &mut Checks) {
    let programs = [
        ("a thread stopped for ever", "stopped", false, "1000000 1", "10000000 1"),
        ("accounts under ThreadSanitizer", "accounts", true, "2 1", "850 1"),
        ("rounds under ThreadSanitizer", "rounds", true, "2 1", "850 1"),
        ("every label accounted for", "accounts", false, "2 1", "850 1"),
        ("rounds are linearizable", "rounds", false, "2 1", "850 1"),
    ];
    for (what, name, tsan, short, long) in programs {
        checks.tell(&format!("threads: {what}"), move || run(name, tsan, short));
        checks.long(&format!("threads: {what}, long"), move || run(name, tsan, long));
    }
}
