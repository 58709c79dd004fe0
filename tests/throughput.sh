#!/usr/bin/env bash
# Measures a program against the reference on one run file of about ten million steps:
# the best of seven runs each, in turn, and once the two traces byte for byte.
# usage: tests/throughput.sh PROGRAM [STEPS [SEED]]
set -eu

[ $# -ge 1 ] && [ -x "$1" ] || { echo "usage: tests/throughput.sh PROGRAM [STEPS [SEED]]" >&2; exit 2; }
root=$(cd "$(dirname "$0")/.." && pwd)
program=$(cd "$(dirname "$1")" && pwd)/$(basename "$1")
steps=${2:-10000000}
seed=${3:-1}
release=${CARGO_TARGET_DIR:-$root/target/cargo}/release
(cd "$root" && cargo build --release --offline --locked --quiet -p reference)

scratch=$root/target/throughput
mkdir -p "$scratch"
trap 'rm -f "$scratch/run" "$scratch/expected" "$scratch/printed"' EXIT
"$release/generate" load "$steps" "$seed" > "$scratch/run"

# Processor seconds of one run, its trace thrown away; other load on the machine hardly shows.
seconds() {
    local TIMEFORMAT='%U %S'
    { time "$1" < "$scratch/run" > /dev/null; } 2>&1 | awk 'END { printf "%.3f\n", $1 + $2 }'
}

best_program=
best_reference=
for _ in 1 2 3 4 5 6 7; do
    best_program=$(printf '%s\n' $best_program "$(seconds "$program")" | sort -n | head -n 1)
    best_reference=$(printf '%s\n' $best_reference "$(seconds "$release/reference")" | sort -n | head -n 1)
done

awk -v steps="$steps" -v ours="$best_program" -v theirs="$best_reference" 'BEGIN {
    printf "%-10s %8s %14s\n", "", "cpu s", "steps/second"
    printf "%-10s %8.3f %14.0f\n", "program", ours, steps / ours
    printf "%-10s %8.3f %14.0f\n", "reference", theirs, steps / theirs
    printf "ratio      %8.2f\n", ours / theirs
}'

"$release/reference" < "$scratch/run" > "$scratch/expected"
"$program" < "$scratch/run" > "$scratch/printed"
if ! cmp "$scratch/expected" "$scratch/printed"; then
    echo "FAILED the traces differ"
    exit 1
fi
echo "the traces are the same, $(wc -l < "$scratch/expected") lines"
