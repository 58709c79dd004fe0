#!/usr/bin/env bash
# A run of a thousand million steps through a program, in 16 MB of address space: the run comes from a pipe and the
# trace goes into one, so neither lies anywhere whole. A minute or two on two cores.
# usage: tests/long_run.sh PROGRAM [STEPS [SEED]]
set -eu -o pipefail

[ $# -ge 1 ] && [ -x "$1" ] || { echo "usage: tests/long_run.sh PROGRAM [STEPS [SEED]]" >&2; exit 2; }
root=$(cd "$(dirname "$0")/.." && pwd)
program=$(cd "$(dirname "$1")" && pwd)/$(basename "$1")
steps=${2:-1000000000}
release=${CARGO_TARGET_DIR:-$root/target/cargo}/release
(cd "$root" && cargo build --release --offline --locked --quiet -p reference)
work=$(mktemp -d)
trap 'rm -rf "$work"' EXIT
mkfifo "$work/run" "$work/trace"

"$release/generate" load "$steps" "${3:-1}" >"$work/run" &
tail -n 1 <"$work/trace" >"$work/last" &
tail=$!
(ulimit -v 16384; exec "$program" <"$work/run" >"$work/trace" 2>"$work/noise") &
running=$!
resident=0
while found=$(awk '$1 == "VmHWM:" { print $2 }' "/proc/$running/status" 2>/dev/null) && [ -n "$found" ]; do
    resident=$found
    sleep 0.2
done
wait "$running" || { echo "FAILED the program ended with status $?"; exit 1; }
wait "$tail"
events=$(grep -aoE '^[0-9]+' "$work/last" || echo 0)
if [ -s "$work/noise" ] || [ "$events" -le "$steps" ]; then
    echo "FAILED with $events as the last event: $(cat "$work/noise")"
    exit 1
fi
echo "$steps steps and $((events - steps)) other events in $SECONDS s; at most $resident kB resident, 16,384 kB allowed"
