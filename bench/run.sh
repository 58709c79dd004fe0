#!/bin/bash
# The benchmark: every exported call of the library against the same call by hand in C, by gcc and by clang.
#
#     bench/run.sh [FOLDER]            counts and times, and prints the table: some four minutes, on an idle machine
#     bench/run.sh --write [FOLDER]    writes it into bench/README.md, its best and worst line into README.md, and
#                                      all that --facts writes
#     bench/run.sh --facts [FOLDER]    counts alone, which does not depend on the machine's load: writes bench/facts.txt,
#                                      what README.md, docs/CALLS.md and the header show of it, and bench/scale.svg
#     bench/run.sh --check [FOLDER]    a test: library and C answer alike and leave the same tables, no figure of
#                                      bench/facts.txt has grown by more than a twentieth, and the documents show them
#     bench/run.sh --stand-in          C by gcc in the library's place: how far the ratios are from 1 is the noise
#
# FOLDER has libzeppolecape.a: target/lib, where `make` writes it. SECONDS_EACH (1.5) is how long a line is timed,
# LONG=1 lets --check try more.
set -eu -o pipefail
export LC_ALL=C
root=$(cd "$(dirname "$0")/.." && pwd)
mode=print
case ${1-} in --write | --facts | --check | --stand-in) mode=${1#--}; shift ;; esac
archive=$(realpath "${1:-$root/target/lib}")/libzeppolecape.a
[ -f "$archive" ] || [ "$mode" = stand-in ] || { echo "bench: no $archive; build it with: make" >&2; echo "0 passed, 1 failed"; exit 2; }
work=$(mktemp -d)
trap 'rm -rf "$work"' EXIT
cd "$root/bench"
. ./shown.sh

# ---- The program ----------------------------------------------------------------------------------------------

FLAGS="-std=gnu11 -Wall -Wextra -Werror -I../include -I."
BY_HAND="reference touch_reference sheet schedules join_reference serve shelf_reference lean bare"

# All calls by hand as a compiler makes them, in one object that shows nothing but their table. zc_run comes from an
# object of its own: in one with the step it would be a second caller of what is measured.
by_hand() { # COMPILER TABLE
    local name compile="$1 $FLAGS -O3 -c"
    mkdir "$work/$2"
    for name in $BY_HAND; do
        $compile $name.c -o "$work/$2/$name.o"
    done
    $compile -DAS_LIBRARY audit_reference.c -o "$work/$2/audit.o"
    $compile -DAS_LIBRARY reference.c -o "$work/$2/run.o"
    objcopy --keep-global-symbol=zc_run "$work/$2/run.o"
    $compile -DBY_HAND -DENGINE="$2" engine.c -o "$work/$2/engine.o"
    ld -r "$work/$2"/*.o -o "$work/$2.o"
    objcopy --keep-global-symbol="$2" "$work/$2.o"
}

driver() {
    local name
    for name in main meter most tables parts/*; do
        gcc $FLAGS -O2 -c "${name%.c}.c" -o "$work/driver.$(basename "$name" .c).o"
    done
}

build() { # two compilers at a time; what is counted needs no clang
    by_hand gcc gcc_calls &
    local first=$!
    driver
    wait $first
    if [ "$mode" = stand-in ]; then
        by_hand gcc library_calls
        archive=
    else
        gcc $FLAGS -O2 -DENGINE=library_calls -c engine.c -o "$work/library_calls.o"
    fi
    if [ "$mode" != check ] && command -v clang >/dev/null; then
        by_hand clang clang_calls
    fi
    gcc -Wl,-z,now "$work"/driver.*.o "$work"/*_calls.o $archive -o "$work/bench"
}

# ---- What is measured -----------------------------------------------------------------------------------------

uses() { # NAME PATTERN: whether the machine code has it
    local lines
    lines=$(objdump -d "$archive" | grep -cE -e "$2" || true)
    echo "uses.$1 $((lines > 0))"
}

measure_facts() { # lines of NAME NUMBER
    uses red_zone '-0x[0-9a-f]+\(%rsp'
    uses sse '%xmm'
    uses avx '%[yz]mm'
    size "$archive" | awk 'NR > 1 { sub(/\.o$/, "", $6); print "code." $6, $1 }'
    "$work/bench" facts
}

trace_line() { # the program trace and the second program: nanoseconds a step
    [ -x "$root/crates/trace/out/trace" ] || { echo "bench: no crates/trace/out/trace, its line is left out; build it with: tools/build trace" >&2; return; }
    "$root/tests/throughput.sh" "$root/crates/trace/out/trace" >"$work/throughput"
    awk '$1 == "program" { ours = 1e9 / $3 } $1 == "reference" { theirs = 1e9 / $3 }
         END { printf "trace\t\t%.2f\t%.2f\n", ours, theirs }' "$work/throughput"
}

machine() { # on which it was measured, and how busy it was
    echo "$(sed -n 's/^model name[^:]*: //p' /proc/cpuinfo | head -1), $(nproc) cores; $(gcc --version | head -1);"
    echo "$(clang --version 2>/dev/null | head -1 || echo 'no clang'); $(date -u +%Y-%m-%d). Load at the start:" \
        "$(awk -v cores="$(nproc)" '{ print $1 ($1 > cores / 2 ? ": other work was under way, so the times are rough" : "") }' /proc/loadavg)."
}

table() {
    "$work/bench" check >"$work/alike" || { cat "$work/alike" >&2; return 1; }
    machine
    echo
    { "$work/bench" lines "${SECONDS_EACH:-1.5}"; [ "$mode" = stand-in ] || trace_line; } >"$work/lines"
    awk -f table.awk "$work/lines"
}

# Every call that the archive exports has a line.
all_measured() {
    nm -g --defined-only "$archive" | awk '$2 == "T" { print $3 }' | sort >"$work/exported"
    if sed -n 's/^stack\.\([^ ]*\) .*/\1/p' "$work/measured" | sort | diff "$work/exported" - >"$work/missed"; then
        echo "1 passed, 0 failed"
    else
        echo "FAILED exported (<) and measured (>) are not the same calls: $(sed -n '/^[<>]/p' "$work/missed" | paste -sd ' ')"
        echo "0 passed, 1 failed"
    fi
}

check() {
    "$work/bench" check ${LONG:+long} >"$work/alike" || tail -n 1 "$work/alike" | grep -q ' failed$' ||
        printf '%s\n' "FAILED the comparison with C ended early" "0 passed, 1 failed" >>"$work/alike"
    measure_facts >"$work/measured"
    { cat "$work/alike"; all_measured; hold facts.txt "$work/measured"; show_facts --check; } | awk '
        /^[0-9]+ passed, [0-9]+ failed$/ { passed += $1; failed += $3; next } { print }
        END { print passed + 0 " passed, " failed + 0 " failed"; exit failed > 0 || passed == 0 }'
}

write_facts() {
    measure_facts >"$work/measured"
    cp "$work/measured" facts.txt
    show_facts --write
    "$work/bench" scale | awk -f plot.awk >"$work/scale.svg"
    cp "$work/scale.svg" scale.svg
}

write() {
    table | tee "$work/table"
    put README.md '<!-- the table -->' '<!-- end of the table -->' "$work/table"
    awk -v speed=1 -f table.awk "$work/lines" >"$work/speed"
    put ../README.md '<!-- speed -->' '<!-- end of speed -->' "$work/speed"
    write_facts
}

build
case $mode in check) check ;; facts) write_facts ;; write) write ;; *) table ;; esac; exit
