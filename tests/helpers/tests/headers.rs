//! Each header alone, as a program's first and only one, and everything that it declares for a caller:
//! no warning in C11, C17 and C++11 to C++20, by gcc and by clang.

use helpers::compiler;
use std::io::Write;
use std::process::Stdio;

/// The macros too, with storage for queues and shelves.
const PLAIN: &str = r#"
#include "zeppolecape.h"
ZC_QUEUE_STORAGE(queue, 2, 3);
ZC_NAMED_STORAGE(named, 16, 1023);
ZC_SHELF_STORAGE(shelves, 2, 3);
ZC_NAMED_SHELF_STORAGE(few, 1, 1);
uint64_t used(int tasks);
uint64_t used(int tasks) {
    return zc_queue_free_slot(&queue) + zc_queue_free_slot(&named) + shelves.left_count + few.next_count
        + ZC_STRETCH(tasks) + ZC_POOLED_STRETCH(tasks) + ZC_ROWS(tasks) + ZC_MARK_WORDS(tasks) + ZC_VERSION
        + ZC_LAST_START_TAG + ZC_MOST_RETRIES;
}
"#;

const ATOMIC: &str = r#"
#include "zeppolecape_atomic.h"
zc_reply used(const zc_shared *all, zc_record *own);
zc_reply used(const zc_shared *all, zc_record *own) { return zc_atomic_pop(all, own, ZC_LEFT); }
"#;

/// Compiles without a word; every wrapper is kept, used or not.
fn clean(name: &str, standards: &[&str]) {
    for standard in standards {
        for text in [PLAIN, ATOMIC] {
            let language = if standard.starts_with("c++") { "c++" } else { "c" };
            let more = ["-x", language, "-O1", "-S", "-o", "/dev/null", "-"];
            let mut command = compiler(name, standard, &more);
            command.stdin(Stdio::piped()).stdout(Stdio::piped()).stderr(Stdio::piped());
            let mut child = command.spawn().expect("a compiler");
            child.stdin.take().expect("a pipe").write_all(text.as_bytes()).expect("a pipe");
            let output = child.wait_with_output().expect("a compiler that ends");
            let said = String::from_utf8_lossy(&output.stderr);
            assert!(output.status.success() && said.is_empty(), "{name} as {standard}:\n{said}");
        }
    }
}

const C: [&str; 2] = ["c11", "c17"];
const CXX: [&str; 4] = ["c++11", "c++14", "c++17", "c++20"];

#[test]
fn gcc() {
    clean("gcc", &C);
    clean("g++", &CXX);
}

#[test]
#[cfg_attr(not(clang), ignore = "NOT TRIED: no clang")]
fn clang() {
    clean("clang", &C);
    clean("clang++", &CXX);
}
