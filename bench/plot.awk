# What `bench scale` prints, as an SVG of small panels: instructions a call against slots, then against tasks.
# Fields: slots or tasks, call, how many, instructions of the library, of C by gcc, by clang.
BEGIN {
    FS = "\t"
    WIDE = 268; HIGH = 178; ACROSS = 3; LEFT = 20; TOP = 84; INNER_X = 52; INNER_Y = 40; INNER_W = 196; INNER_H = 96
    split("#1f4e9c #d9660a #6b7f6b", colour, " ")
    split("library|C by gcc -O3|C by clang -O3", engine, "|")
    split("2.4 1.6 1.6", stroke, " ")
    split("none 5,3 2,2", dash, " ")
}
{
    panel = $1 SUBSEP $2
    if (!(panel in points)) { panels[$1, ++count[$1]] = $2; order[$1] = 1 }
    at[panel, ++points[panel]] = $3
    for (e = 1; e <= NF - 3; e++) {
        of[panel, points[panel], e] = $(e + 3)
        if ($(e + 3) > most[panel]) most[panel] = $(e + 3)
        if (e > engines) engines = e
    }
}
function grouped(number,   text) { # 1,023
    text = sprintf("%d", number)
    return length(text) > 3 ? grouped(substr(text, 1, length(text) - 3)) "," substr(text, length(text) - 2) : text
}
function above(number,   power, step, steps, count) { # a round number with some room above
    power = 1
    while (power * 10 <= number) power *= 10
    count = split("1 1.5 2 2.5 3 4 5 6 8 10", steps, " ")
    for (step = 1; step < count && steps[step] * power < 1.05 * number; step++) ;
    return steps[step] * power
}
function text(x, y, anchor, size, fill, words) {
    printf "<text x=\"%.1f\" y=\"%.1f\" text-anchor=\"%s\" font-size=\"%s\" fill=\"%s\">%s</text>\n", x, y, anchor, size, fill, words
}
function path(places, e) { # as an engine's lines are drawn
    printf "<polyline points=\"%s\" fill=\"none\" stroke=\"%s\" stroke-width=\"%s\" stroke-dasharray=\"%s\"/>\n", \
        places, colour[e], stroke[e], dash[e]
}
function line(x1, y1, x2, y2, stroke_colour) {
    printf "<line x1=\"%.1f\" y1=\"%.1f\" x2=\"%.1f\" y2=\"%.1f\" stroke=\"%s\" stroke-width=\"1\"/>\n", x1, y1, x2, y2, stroke_colour
}
function axes(x, y, against, top,   half, right, tick, ticks, names) {
    for (half = 0; half <= 2; half++) {
        line(x, y + INNER_H * (1 - half / 2), x + INNER_W, y + INNER_H * (1 - half / 2), half == 0 ? "#555" : "#ddd")
        text(x - 5, y + INNER_H * (1 - half / 2) + 3.5, "end", 10, "#444", grouped(top * half / 2))
    }
    right = against == "slots" ? 1023 : 16
    ticks = split(against == "slots" ? "1 256 512 768 1023" : "1 4 8 12 16", names, " ")
    for (tick = 1; tick <= ticks; tick++) {
        line(x + INNER_W * names[tick] / right, y + INNER_H, x + INNER_W * names[tick] / right, y + INNER_H + 3, "#555")
        text(x + INNER_W * names[tick] / right, y + INNER_H + 14, "middle", 10, "#444", grouped(names[tick]))
    }
}
function curve(x, y, panel, against, top, e,   p, places, right) {
    right = against == "slots" ? 1023 : 16
    for (p = 1; p <= points[panel]; p++)
        places = places sprintf("%.1f,%.1f ", x + INNER_W * at[panel, p] / right, y + INNER_H * (1 - of[panel, p, e] / top))
    path(places, e)
}
function draw(against, number, row,   call, panel, x, y, top, e, last) {
    call = panels[against, number]
    panel = against SUBSEP call
    x = LEFT + (number - 1) % ACROSS * WIDE + INNER_X
    y = row + int((number - 1) / ACROSS) * HIGH + INNER_Y
    top = above(most[panel])
    last = points[panel]
    text(x - INNER_X + 8, y - 24, "start", 13, "#111", call (call == "zc_save" ? ", memmove not counted" : ""))
    text(x - INNER_X + 8, y - 9, "start", 10.5, colour[1], sprintf("library: %s at %s, %s at %s %s", \
        grouped(of[panel, 1, 1] + 0.5), grouped(at[panel, 1]), grouped(of[panel, last, 1] + 0.5), grouped(at[panel, last]), against))
    axes(x, y, against, top)
    for (e = engines; e >= 1; e--) curve(x, y, panel, against, top, e)
}
function group(against, row, words,   number) {
    text(LEFT + 8, row + 2, "start", 14, "#111", words)
    for (number = 1; number <= count[against]; number++) draw(against, number, row + 12)
    return row + 30 + int((count[against] + ACROSS - 1) / ACROSS) * HIGH
}
END {
    high = TOP + 60 + (int((count["slots"] + ACROSS - 1) / ACROSS) + int((count["tasks"] + ACROSS - 1) / ACROSS)) * HIGH
    wide = 2 * LEFT + ACROSS * WIDE
    printf "<svg xmlns=\"http://www.w3.org/2000/svg\" viewBox=\"0 0 %d %d\" width=\"%d\" height=\"%d\" font-family=\"sans-serif\">\n", wide, high, wide, high
    printf "<title>Instructions a call against slots and tasks</title>\n<rect width=\"100%%\" height=\"100%%\" fill=\"#ffffff\"/>\n"
    text(LEFT + 8, 28, "start", 17, "#111", "Instructions a call, counted")
    for (e = 1; e <= engines; e++) {
        path(sprintf("%d,48 %d,48", LEFT + 8 + 170 * (e - 1), LEFT + 38 + 170 * (e - 1)), e)
        text(LEFT + 44 + 170 * (e - 1), 52, "start", 12, "#111", engine[e])
    }
    row = group("slots", TOP, "against slots, 5 tasks; what walks: every slot waiting")
    group("tasks", row, "against tasks, 12 slots; the report: 3 labels waiting")
    print "</svg>"
}
