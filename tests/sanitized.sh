#!/usr/bin/env bash
# The Rust crate's tests, the corpus and random calls under the address sanitizer, which sees what the crate's unsafe
# code lends. Leaks are not looked for: some tests forget a handle on purpose. A minute, and its compilation.
#
# The sanitizer is an unstable option of rustc: RUSTC_BOOTSTRAP lets the installed stable compiler take it, so that no
# other one is needed. The standard library is not instrumented. Miri can't take the sanitizer's place: all of the
# crate's unsafe code but one line (audit.rs) calls a foreign archive, which Miri does not run.
set -u
cd "$(dirname "$0")/.." || exit 2
RUSTC_BOOTSTRAP=1 RUSTFLAGS="-Zsanitizer=address" ROUNDS=${ROUNDS:-5000} ASAN_OPTIONS=detect_leaks=0 \
    cargo test --release --offline --locked --target x86_64-unknown-linux-gnu --target-dir target/asan -p zeppolecape -p fuzz --tests --no-fail-fast
