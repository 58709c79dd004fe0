#!/usr/bin/env bash
# A coverage-guided fuzzer (clang's libFuzzer) over lent tables, owned queues, run files and history texts, each
# held to the second program (tests/fuzz). Ten minutes for all four; what reached something new is kept.
#
#     tests/fuzz.sh [SECONDS [TARGET..]]     600 seconds in all; the targets are tables, owned, runs and histories
#     tests/fuzz.sh --minimise [TARGET..]    the corpus of each made as small as it can be, with the same coverage
#
# It wants `make`, the programs trace and verdict (tools/build trace verdict), and Debian's clang with libclang-rt-14-dev. A finding is kept as
# target/fuzz/found/TARGET-*; `FUZZ=TARGET target/fuzz/x86_64-unknown-linux-gnu/release/fuzz FILE` shows it again.
set -u -o pipefail
cd "$(dirname "$0")/.." || exit 2
target=x86_64-unknown-linux-gnu
program=target/fuzz/$target/release/fuzz
all="tables owned runs histories"

runtime=$(clang --print-file-name=libclang_rt.fuzzer-x86_64.a 2>/dev/null)
[ -f "$runtime" ] || runtime=$(clang --print-runtime-dir 2>/dev/null)/libclang_rt.fuzzer-x86_64.a
[ -f "$runtime" ] || { echo "tests/fuzz.sh: no libFuzzer; install clang and libclang-rt-14-dev" >&2; exit 2; }

# Each edge counted in a byte, and the numbers that are compared, in the second program and in the comparing code.
counted="-Cpasses=sancov-module -Cllvm-args=-sanitizer-coverage-level=4 -Cllvm-args=-sanitizer-coverage-inline-8bit-counters"
counted+=" -Cllvm-args=-sanitizer-coverage-pc-table -Cllvm-args=-sanitizer-coverage-trace-compares"
RUSTFLAGS="$counted -Ccodegen-units=1 -Cdebug-assertions=on -Clink-arg=$runtime -Clink-arg=-lstdc++" \
    cargo build --quiet --release --offline --locked -p fuzz --features fuzzer --bin fuzz --target $target --target-dir target/fuzz || exit 2

# One target for so many seconds, or its corpus into a smaller one.
fuzz() { # TARGET SECONDS
    mkdir -p "target/fuzz/corpus/$1" target/fuzz/found
    FUZZ=$1 "$program" -max_total_time="$2" -max_len=600 -len_control=0 -timeout=20 -rss_limit_mb=4096 -use_value_profile=1 -print_final_stats=1 \
        -artifact_prefix="target/fuzz/found/$1-" "target/fuzz/corpus/$1" "tests/fuzz/corpus/$1" >"target/fuzz/$1.log" 2>&1
    status=$?
    echo "$1: $(grep -E 'DONE|pulse' "target/fuzz/$1.log" | tail -n 1 | tr '\t' ' ')"
    sed -nE 's/^stat::(number_of_executed_units|new_units_added|average_exec_per_sec): +/    \1 /p' "target/fuzz/$1.log"
    [ $status -eq 0 ] || { echo "FAILED $1: a finding"; grep -m 3 -E "panicked|left:|right:|ERROR" "target/fuzz/$1.log"; }
    return $status
}

minimised() { # TARGET
    rm -rf "target/fuzz/small/$1" && mkdir -p "target/fuzz/small/$1" "target/fuzz/corpus/$1"
    FUZZ=$1 "$program" -set_cover_merge=1 -max_len=600 "target/fuzz/small/$1" "tests/fuzz/corpus/$1" "target/fuzz/corpus/$1" \
        >"target/fuzz/$1.merge" 2>&1 || return 1
    rm -rf "tests/fuzz/corpus/$1" && cp -r "target/fuzz/small/$1" "tests/fuzz/corpus/$1"
    echo "$1: $(find "tests/fuzz/corpus/$1" -type f | wc -l) inputs, $(du -sb "tests/fuzz/corpus/$1" | cut -f 1) bytes"
}

if [ "${1:-}" = --minimise ]; then
    shift
    for name in ${*:-$all}; do minimised "$name" || exit 1; done
    exit 0
fi
seconds=${1:-600}
shift
failed=0
names=(${*:-$all})
for name in "${names[@]}"; do fuzz "$name" $((seconds / ${#names[@]})) || failed=1; done
exit $failed
