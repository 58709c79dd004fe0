# What README.md, docs/CALLS.md and the header show of bench/facts.txt. Read by bench/run.sh, in whose folder it runs.

SIZES="1.3 5.12 16.1023" # TASKS.SLOTS
CALLS="zc_open zc_open_pooled zc_push zc_push_pooled zc_pop zc_step zc_step_record zc_run zc_report"

# Puts a file's lines in place of those between two markers.
put() { # FILE FIRST LAST LINES
    awk -v first="$2" -v last="$3" -v lines="$4" '
        index($0, last) { skip = 0 }
        !skip { print }
        index($0, first) { skip = 1; while ((getline line < lines) > 0) print line }' "$1" >"$work/put"
    cp "$work/put" "$1"
}

# A test for each figure: at most a twentieth above what is stored. Less is told and passes.
hold() { # STORED MEASURED
    awk '
        NR == FNR { is[$1] = $2; next }
        { stored[$1] = 1 }
        !($1 in is) { failed++; print "FAILED " $1 ": stored and not measured"; next }
        20 * is[$1] > 21 * $2 { failed++; print "FAILED " $1 ": " is[$1] ", more than a twentieth above " $2; next }
        20 * is[$1] < 19 * $2 { print "less: " $1 ": " is[$1] ", more than a twentieth below " $2 " (bench/run.sh --facts stores it)" }
        { passed++ }
        END {
            for (name in is) if (!(name in stored)) { failed++; print "FAILED " name ": measured and not stored: bench/run.sh --facts" }
            print passed + 0 " passed, " failed + 0 " failed"
        }' "$2" "$1"
}

# The figures as rows: name, stack, and a number for each size.
rows() {
    awk -v sizes="$SIZES" -v calls="$CALLS" '
        { of[$1] = $2 }
        END {
            count = split(sizes, size, " ")
            calls = split(calls, call, " ")
            for (c = 1; c <= calls; c++) {
                printf "%s %s", call[c], of["stack." call[c]]
                for (s = 1; s <= count; s++) printf " %s", of["most." call[c] "." size[s]]
                print ""
            }
            printf "tables -"
            for (s = 1; s <= count; s++) printf " %s", of["tables." size[s]]
            print ""
        }' facts.txt
}

code() { # "capi 7207, .."
    sed -n 's/^code\.\([^ ]*\) \(.*\)$/\1 \2/p' facts.txt | paste -sd , | sed 's/,/, /g'
}

other_stacks() { # PATTERN AS: of the calls that have no row
    awk -v calls=" $CALLS " -v as="$1" '
        /^stack\./ { name = substr($1, 7) }
        /^stack\./ && !index(calls, " " name " ") { sub(/^zc_audit_words$/, "zc_audit", name); printf "%s" as, gap, name, $2; gap = ", " }' facts.txt
}

shown_CALLS() {
    echo "| call | stack, bytes | instructions at most: 1 task, 3 slots | 5 tasks, 12 slots | 16 tasks, 1,023 slots |"
    echo "|---|---|---|---|---|"
    rows | awk '$1 == "tables" { printf "| bytes of the tables | | %s | %s | %s |\n", $3, $4, $5; next }
        { printf "| `%s` | %s | %s | %s | %s |\n", $1, $2, $3, $4, $5 }'
    echo
    # in two sentences: those that threads' whole calls and steps are made of, zc_plan and what follows it, apart
    echo "Bytes of stack of the others: $(other_stacks '`%s` %s')." | sed 's/, `zc_plan`/. Of what threads call: `zc_plan`/'
    echo
    echo "Bytes of code, by the part of the library: $(code); a program links the parts whose calls it makes."
}

shown_README() {
    rows | awk '
        { stack[$1] = $2; most[$1] = $5; middle[$1] = $4 }
        END {
            printf "- **Stack and instructions**, the most seen with 16 tasks and 1,023 slots:"
            count = split("zc_step zc_push zc_push_pooled zc_pop zc_report", call, " ")
            for (c = 1; c <= count; c++)
                printf "%s `%s` %s bytes and %s instructions", (c > 1 ? "," : ""), call[c], stack[call[c]], most[call[c]]
            print ". The others, and the bytes of code: `docs/CALLS.md`. Tables of 5 tasks and 12 slots: " middle["tables"] " bytes."
        }'
}

shown_HEADER() {
    echo " *                  stack,   instructions at most, by tasks and slots"
    echo " *                  bytes      1, 3     5, 12  16, 1023"
    rows | awk '{ printf " *   %-14s %6s %9s %9s %9s\n", $1 == "tables" ? "table bytes" : $1, $2, $3, $4, $5 }'
    { echo "stack bytes of the others: $(other_stacks '%s %s')"; echo "code bytes: $(code)"; } | sed 's/\([a-z_]\) \([0-9]\)/\1~\2/g' |
        fold -s -w 90 | sed 's/ $//; s/~/ /g; s/^/ *   /'
}

# Writes what each file shows, or, with --check, tests that it does: "N passed, M failed".
show_facts() { # --write | --check
    local which file first last passed=0 failed=0
    while read -r which file first last; do
        "shown_$which" >"$work/shown"
        cp "$file" "$work/$which"
        put "$work/$which" "${first//_/ }" "${last//_/ }" "$work/shown"
        if [ "$1" = --write ]; then
            cp "$work/$which" "$file"
        elif cmp -s "$file" "$work/$which"; then
            passed=$((passed + 1))
        else
            failed=$((failed + 1))
            echo "FAILED ${file#../} shows other figures than bench/facts.txt: bench/run.sh --facts"
        fi
    done <<'END'
README ../README.md <!--_facts_--> <!--_end_of_facts_-->
CALLS ../docs/CALLS.md <!--_facts_--> <!--_end_of_facts_-->
HEADER ../include/zeppolecape.h _*_FACTS _*_As_to_the_machine:
END
    [ "$1" = --write ] || echo "$passed passed, $failed failed"
}
