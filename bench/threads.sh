#!/bin/bash
# Threads on one queue: zeppolecape_atomic.h against a mutex around the proved calls, a mutex around a
# plain ring, and the algorithm by hand with atomics. Prints three tables in Markdown, in about five
# minutes; run it on an idle machine, of at least two cores.
#
#     bench/threads.sh [FOLDER]             of libzeppolecape.a; default: target/lib, where `make` writes it
#     bench/threads.sh --write [FOLDER]     also writes the tables into bench/README.md
#
# CXX (g++), PAIRS (2000000), TIMES (9) and SECONDS_EACH (3) may be set.
set -eu -o pipefail
write=
[ "${1:-}" != --write ] || { write=yes; shift; }
folder=$(realpath "${1:-$(dirname "$0")/../target/lib}")
cd "$(dirname "$0")"
CXX=${CXX:-g++}
PAIRS=${PAIRS:-2000000}
TIMES=${TIMES:-9}
SECONDS_EACH=${SECONDS_EACH:-3}
COUNTED=20000
work=$(mktemp -d)
trap 'rm -rf "$work"' EXIT
$CXX -std=c++17 -O3 -g -Wall -Wextra -Werror -I../include threads.cc "$folder/libzeppolecape.a" -pthread -o "$work/threads"

# Pairs beside those of the mutex around the proved calls: with one thread, and the least and most with more.
beside_mutex() {
    awk -F '|' '
        { way = $2 ~ /named/ ? "named" : "pooled" }
        $2 ~ /zeppolecape_atomic/ { for (n = 3; n <= 5; n++) ours[way, n] = $n }
        $2 ~ /proved calls/ { for (n = 3; n <= 5; n++) ratio[way, n] = ours[way, n] / $n }
        END {
            for (key in ratio) {
                if (key ~ /3$/) continue
                if (least == "" || ratio[key] < least) least = ratio[key]
                if (ratio[key] > most) most = ratio[key]
            }
            printf "Of the pairs of the mutex around the proved calls the threads make %.1f to %.1f times as many with two and four threads;", least, most
            printf " with one thread %.2f of them in a named queue and %.2f in a pooled one.\n", ratio["named", 3], ratio["pooled", 3]
        }' "$work/pairs"
}

# Of rows that stand in several runs: each once, every figure the median of its own.
medians() {
    awk -F '|' '
        !($2 in seen) { seen[$2] = ++rows; name[rows] = $2 }
        { at = seen[$2]; times[at]++; for (n = 3; n <= 5; n++) all[at, n, times[at]] = $n + 0 }
        END {
            for (at = 1; at <= rows; at++) {
                printf "|%s|", name[at]
                for (n = 3; n <= 5; n++) {
                    for (i = 2; i <= times[at]; i++) {
                        v = all[at, n, i]
                        for (j = i - 1; j >= 1 && all[at, n, j] > v; j--) all[at, n, j + 1] = all[at, n, j]
                        all[at, n, j + 1] = v
                    }
                    printf " %.2f |", all[at, n, int((times[at] + 1) / 2)]
                }
                print ""
            }
        }'
}

tables() {
    echo "$(sed -n 's/^model name[^:]*: //p' /proc/cpuinfo | head -1), $(nproc) cores; $($CXX --version | head -1), -O3; load $(cut -d ' ' -f 1 /proc/loadavg)."
    echo
    echo "Million pairs of push and pop a second, by all threads together; median of $TIMES runs of $PAIRS pairs, each a process of its own,"
    echo "since where the system lays its stack and tables moves a figure by up to a fifth."
    echo
    echo "| | 1 thread | 2 | 4 |"
    echo "|---|---|---|---|"
    for run in $(seq "$TIMES"); do "$work/threads" pairs "$PAIRS" 1; done >"$work/runs"
    medians <"$work/runs" | tee "$work/pairs"
    echo
    beside_mutex
    echo
    echo "The longest that a thread waited for a push and a pop, in microseconds, while another is stopped for 10 ms"
    echo "at one in 256 of its touches; median of 3 runs of $SECONDS_EACH s. With more threads than cores a wait includes the others' turns."
    echo
    echo "| | 2 threads | 4 |"
    echo "|---|---|---|"
    "$work/threads" waits "$SECONDS_EACH" 3
    echo
    echo "A step of \`zeppolecape_atomic.h\`, one thread: starts, touches and loops included in the first two figures."
    echo
    echo "| queue | steps a pair | ns a step | instructions a step | of these zc_settle_unasked |"
    echo "|---|---|---|---|---|"
    for way in named pooled; do
        steps=$("$work/threads" count $way $COUNTED)
        ns=$(awk -v way=$way -v steps="$steps" -v pairs=$COUNTED -F '|' \
            '$2 ~ "atomic.*" way { printf "%.1f", 1000 / $3 / (steps / pairs) }' "$work/pairs")
        all=- settled=-
        if command -v valgrind >/dev/null; then
            valgrind --tool=callgrind --callgrind-out-file="$work/out" --toggle-collect='*counted_pairs*' "$work/threads" count $way $COUNTED >/dev/null 2>&1
            all=$(awk -v steps="$steps" '$1 == "summary:" { printf "%.0f", $2 / steps }' "$work/out")
            settled=$(callgrind_annotate --inclusive=yes --threshold=100 "$work/out" 2>/dev/null |
                awk -v steps="$steps" '!found && /:zc_settle_unasked/ { gsub(",", "", $1); printf "%.0f", $1 / steps; found = 1 }')
        fi
        awk -v s="$steps" -v p=$COUNTED -v way=$way -v ns="$ns" -v all="$all" -v settled="$settled" \
            'BEGIN { printf "| %s | %.1f | %s | %s | %s |\n", way, s / p, ns, all, settled }'
    done
}

if [ -n "$write" ]; then
    . ./shown.sh
    tables | tee "$work/tables"
    put README.md '<!-- threads -->' '<!-- end of threads -->' "$work/tables"
else
    tables
fi
