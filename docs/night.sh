#!/bin/sh
# Draws docs/night.svg: local time against UTC at base offset 60, around both switches of 2024.
#   docs/night.sh          writes the picture
#   docs/night.sh check    says whether the picture is as drawn
set -eu
cd "$(dirname "$0")/.."

draw() {
    awk '
    # Of a panel the left edge is LEFT. Minutes of UTC are counted from its first hour, 23:00, and of local time from its midnight.
    function px(utc) { return LEFT + utc * 1.5 }
    function py(local) { return 372 - local }
    function clock(m) { return sprintf("%02d:%02d", int(m / 60) % 24, m % 60) }
    function text(x, y, class, s) { printf "<text x=\"%s\" y=\"%s\" class=\"%s\">%s</text>\n", x, y, class, s }
    function line(a, b, c, d, class) { printf "<line x1=\"%s\" y1=\"%s\" x2=\"%s\" y2=\"%s\" class=\"%s\"/>\n", px(a), py(b), px(c), py(d), class }
    function dot(utc, local, class) { printf "<circle cx=\"%s\" cy=\"%s\" r=\"4\" class=\"%s\"/>\n", px(utc), py(local), class }
    # What clocks show from one minute of UTC on, up to another which is not one of it, and beside it the season.
    function season(from, upto, local, class, name, at, dy) {
        line(from, local, upto, local + upto - from, class)
        if (from > 0) dot(from, local, class " full")
        if (upto < 240) dot(upto, local + upto - from, class " open")
        printf "<text transform=\"translate(%s %s) rotate(-33.69)\" class=\"word %sword\" y=\"%s\">%s</text>\n", px(from + at), py(local + at), class, dy, name
    }
    function panel(left, title, band, number, name, note,  k) {
        LEFT = left
        text(px(0), 26, "title", title)
        text(px(0), 44, "note", note)
        printf "<rect x=\"%s\" y=\"%s\" width=\"360\" height=\"60\" class=\"%s\"/>\n", px(0), py(180), band
        for (k = 0; k <= 300; k += 60) { line(0, k, 240, k, "grid"); text(px(0) - 8, py(k) + 4, "tick end", clock(k)) }
        for (k = 0; k <= 240; k += 60) { line(k, 0, k, 300, "grid"); text(px(k), py(0) + 18, "tick middle", clock(k + 1380)) }
        text(px(0) - 8, py(300) - 12, "note end", "local")
        text(px(240) + 24, py(0) + 18, "note", "UTC")
        text(px(8), py(158), "number", number)
        text(px(8), py(132), "note", name)
    }
    # A minute that clocks show as 02:30.
    function half(utc, minute) {
        line(utc, 150, utc, 0, "half")
        dot(utc, 150, "half full")
        text(px(utc), py(0) + 36, "tick middle", minute)
    }
    BEGIN {
        print "<svg xmlns=\"http://www.w3.org/2000/svg\" width=\"960\" height=\"424\" viewBox=\"0 0 960 424\""
        print "    font-family=\"DejaVu Sans, Verdana, sans-serif\">"
        print "<title>Local time against UTC at base offset 60, on the nights of the two switches of 2024</title>"
        print "<!-- made by docs/night.sh: change that, not this -->"
        print "<style>"
        print "text { fill: #1a1a1a; font-size: 12px } .title { font-size: 14px; font-weight: bold } .note { font-size: 11px; fill: #444 }"
        print ".number { font-size: 17px; font-weight: bold } .word { font-size: 12.5px; font-weight: bold }"
        print ".summerword { fill: #a34700 } .winterword { fill: #1c5a9e } .end { text-anchor: end } .middle { text-anchor: middle }"
        print "line { stroke-width: 2.5; stroke-linecap: round } .grid { stroke: #d8d8d8; stroke-width: 1 } circle { stroke-width: 2 }"
        print ".summer { stroke: #c25700 } .winter { stroke: #2369b3 } .half { stroke: #555; stroke-width: 1.2; stroke-dasharray: 4 4 }"
        print "circle.half { stroke-dasharray: none } .open { fill: #ffffff } .summer.full { fill: #c25700 } .winter.full { fill: #2369b3 } .half.full { fill: #555 }"
        print ".skipped { fill: #f6d9d9 } .doubled { fill: #fcebb6 } .paper { fill: #ffffff }"
        print "</style>"
        print "<rect x=\"0\" y=\"0\" width=\"960\" height=\"424\" class=\"paper\"/>"

        panel(62, "31 March 2024", "skipped", "19", "skipped", "at 01:00 UTC, minute 28,530,780, clocks go from 02:00 to 03:00")
        line(0, 150, 240, 150, "half")
        text(px(240) + 8, py(150) + 4, "tick", "02:30")
        text(px(132), py(155), "note", "no clock shows 02:30")
        season(0, 120, 0, "winter", "winter, mark 2", 20, -7)
        season(120, 240, 180, "summer", "summer, mark 1", 20, -7)

        panel(538, "27 October 2024", "doubled", "20", "doubled", "at 01:00 UTC, minute 28,833,180, clocks go from 03:00 to 02:00")
        line(0, 150, 240, 150, "half")
        text(px(240) + 8, py(150) + 4, "tick", "02:30")
        season(0, 120, 60, "summer", "summer, mark 1", 12, 17)
        season(120, 240, 120, "winter", "winter, mark 2", 54, 17)
        half(90, "28,833,150")
        half(150, "28,833,210")
        text(px(150) + 46, py(0) + 36, "note", "minutes since 1970")
        print "</svg>"
    }'
}

made=$(draw)
if [ "${1:-}" = check ]; then
    [ "$made" = "$(cat docs/night.svg)" ] || { echo "docs/night.svg: run docs/night.sh" >&2 && exit 1; }
    exit 0
fi
printf '%s\n' "$made" >docs/night.svg
