# What `bench lines` prints, as a table in Markdown; with -v speed=1 one sentence for README.md in its place.
# Fields: call, with what, then instructions, stack and nanoseconds of the library, of C by gcc and by clang.
# A line of the program trace has its nanoseconds and the second program's.
BEGIN {
    FS = "\t"
    if (!speed) {
        three = "library | gcc | clang"
        print "| call | with | instructions: " three " | library/gcc | /clang | ns: " three " | library/gcc | /clang | stack: " three " |"
        print "|---|---|---|---|---|---|---|---|---|---|---|---|---|---|---|"
    }
}
function ratio(a, b) { return b > 0 ? sprintf("%.2f", a / b) : "" }
function plain(number) { return number == "" ? "" : number < 9.95 ? sprintf("%.1f", number) : grouped(sprintf("%.0f", number)) }
function grouped(digits) { # 1,023
    return length(digits) > 3 ? grouped(substr(digits, 1, length(digits) - 3)) "," substr(digits, length(digits) - 2) : digits
}
function shown(name) { return name == "zc_audit_words" ? "zc_audit" : name }
function keep(r, by) {
    if (r == "") return
    if (best == "" || r + 0 < best + 0) { best = r; best_line = by }
    if (worst == "" || r + 0 > worst + 0) { worst = r; worst_line = by }
}
$1 == "trace" {
    trace = ratio($3, $4)
    if (!speed)
        printf "| program `trace` | a step of ten million | | | | | | %s | second program: %s | | %s | | | | |\n", plain($3), plain($4), trace
    next
}
{
    lines++
    if ($2 !~ /bare/) {
        keep(ratio($5, $8), "`" shown($1) "`, " $2 ", gcc")
        keep(ratio($5, $11), "`" shown($1) "`, " $2 ", clang")
    }
    if ($1 == "zc_step" && $2 !~ /\.c/) {
        r = ratio($5, $8)
        if (least == "" || r + 0 < least + 0) least = r
        if (most == "" || r + 0 > most + 0) most = r
    }
    if (!speed)
        printf "| `%s` | %s | %s | %s | %s | %s | %s | %s | %s | %s | %s | %s | %s | %s | %s |\n", shown($1), $2, \
            plain($3), plain($6), plain($9), ratio($3, $6), ratio($3, $9), \
            plain($5), plain($8), plain($11), ratio($5, $8), ratio($5, $11), grouped($4), grouped($7), grouped($10)
}
END {
    if (speed) {
        printf "- **Speed**, against the same call by hand in C at -O3, of %d lines in `bench/README.md`:", lines
        printf " the best takes %s of the time (%s), the worst %s (%s).", best, best_line, worst, worst_line
        printf " `zc_step` takes %s to %s by gcc, the program `trace` (`docs/TOOLS.md`) %s of the time of a second program in Rust.", least, most, trace
        print " Threads against a mutex are there too."
    }
}
