#!/bin/sh
# Draws docs/architecture.svg: the crates of crates.txt by layer and family, with the main arrows between families.
#   docs/architecture.sh          writes the picture
#   docs/architecture.sh check    says whether the picture is as drawn, and whether docs/ARCHITECTURE.md has each crate once
# Each crate of crates.txt must stand in one box below, and each arrow must be a dependency of crates.txt: else nothing is written.
set -eu
cd "$(dirname "$0")/.."

draw() {
    awk '
    # ---- the table: layers, boxes, arrows

    function table() {
        #     y, height, name, two lines on it
        layer(44, 244, "model", "values and", "memberships")
        layer(292, 132, "machine", "states, one", "row a step")
        layer(428, 152, "layout", "which record", "is what")
        layer(584, 258, "records", "nodes, groups,", "undo records")
        layer(846, 92, "words", "what runs", "")
        layer(950, 84, "apart", "knows no", "store")

        #   id, x, y, width, height, colour, title, what it is, crates
        box("journal", 304, 62, 270, 96, "store", "a journal", "of any store, and of this one", \
            "journal_reader journal_lines replay journal check_journal own_journal")
        box("journals", 614, 62, 360, 96, "beside", "journals compared", "with a second model, on random journals", \
            "naive_journal made_journals changed_journals compare_journals")
        box("serial", 104, 174, 160, 96, "theory", "theory: model", "demand 3 of any store", "serial")
        box("lent", 304, 174, 270, 96, "store", "lent layer and C", "what a host calls", "tables seats store packing entry_store")
        box("traces", 614, 174, 160, 96, "beside", "traces", "scripts played, compared", "scripts failures tracing trace vectors")
        box("compare", 814, 174, 160, 96, "beside", "compare", "store and second model", "schedules books choices turns compare")

        box("machine", 104, 310, 160, 96, "theory", "theory: machine", "each call, each step", "machine cases")
        box("calls", 304, 304, 270, 114, "store", "promises and calls, a card\047s day", "the calls on words, demands 1 to 3", \
            "refusals promises accepted stepping serving running asking batches calls looking card_days day_model day_calls")
        box("second", 814, 310, 160, 96, "beside", "second model", "plain structs", "naive_tree naive_steps naive")

        box("meaning", 104, 446, 160, 116, "theory", "what words mean", "Sound, Holds, Becomes", "meaning layout")
        box("rows", 304, 446, 270, 116, "store", "rows of the steps", "each proved to be the machine\047s", \
            "starting root_entry walking arriving changing taking leaving aborting recovering finishing grouping long_locks undoing")
        box("soundness", 614, 446, 160, 116, "test", "proof of the test", "true exactly if Sound", "soundness")
        box("judge", 814, 446, 160, 116, "beside", "second judge", "shares no code", "checker")

        box("leaf", 304, 602, 270, 96, "store", "leaf functions of the steps", "exit words equal a definition", \
            "descents splits joins members undo_log scans endings")
        box("test", 614, 602, 160, 138, "test", "test of soundness", "one pass a part", \
            "marks requests standing parties tree_walk undo_chains lists holders passing holdings sound")
        box("damage", 814, 602, 160, 96, "beside", "samples, damage", "one word changed", "samples damage")
        box("records", 304, 762, 470, 66, "store", "records", "20 words each, read and written", \
            "kinds chain nodes reshaping groups undos")

        box("words", 304, 864, 470, 58, "store", "words, session table, lock rule, answers", "", "words locks sessions seniority outcomes")
        box("stamps", 304, 962, 470, 60, "stamps", "local stamps", "UTC minutes and local date, time and mark, for C", "calendar switches stamps local_stamps")

        #     from, to, the points of the line
        arrow("journals", "journal", "614,110 574,110")
        arrow("journal", "serial", "304,110 184,110 184,174")
        arrow("lent", "journal", "439,174 439,158")
        arrow("lent", "serial", "304,222 264,222")
        arrow("lent", "calls", "439,270 439,304")
        arrow("traces", "calls", "694,270 694,336 574,336")
        arrow("compare", "calls", "814,242 794,242 794,358 574,358")
        arrow("compare", "second", "894,270 894,310")
        arrow("compare", "judge", "974,222 988,222 988,504 974,504")
        arrow("machine", "serial", "184,310 184,270")
        arrow("machine", "words", "104,358 94,358 94,893 304,893")
        arrow("calls", "machine", "304,358 264,358")
        arrow("calls", "rows", "439,418 439,446")
        arrow("calls", "soundness", "574,380 694,380 694,446")
        arrow("meaning", "machine", "184,446 184,406")
        arrow("meaning", "records", "184,562 184,795 304,795")
        arrow("rows", "meaning", "304,504 264,504")
        arrow("rows", "leaf", "439,562 439,602")
        arrow("soundness", "meaning", "614,532 594,532 594,582 284,582 284,536 264,536")
        arrow("soundness", "test", "694,562 694,602")
        arrow("damage", "judge", "894,602 894,562")
        arrow("damage", "test", "814,650 774,650")
        arrow("leaf", "records", "439,698 439,762")
        arrow("test", "records", "694,740 694,762")
        arrow("records", "words", "539,828 539,864")
    }

    # ---- the table kept, with what crates.txt says

    function layer(y, h, name, one, two) {
        L++; ly[L] = y; lh[L] = h; lname[L] = name; lone[L] = one; ltwo[L] = two
    }
    function box(id, x, y, w, h, colour, title, note, crates,  i, n, a) {
        B++; bid[B] = id; bx[B] = x; by[B] = y; bw[B] = w; bh[B] = h
        bcolour[B] = colour; btitle[B] = title; bnote[B] = note; bcrates[B] = crates
        n = split(crates, a, " ")
        for (i = 1; i <= n; i++) {
            if (a[i] in home) fail("in two boxes: " a[i])
            home[a[i]] = id
        }
    }
    function arrow(from, to, points) {
        A++; afrom[A] = from; ato[A] = to; apoints[A] = points
    }
    function fail(why) {
        print "architecture.sh: " why | "cat 1>&2"
        bad = 1
    }
    function checked(  i, c) {
        for (c in home) if (!(c in known)) fail("not in crates.txt: " c)
        for (i = 1; i <= A; i++) if (!((afrom[i], ato[i]) in rests)) fail("no such dependency: " afrom[i] " " ato[i])
        return !bad
    }

    # ---- SVG

    function text(x, y, class, s) {
        printf "<text x=\"%s\" y=\"%s\" class=\"%s\">%s</text>\n", x, y, class, s
    }
    function paint_layer(i) {
        printf "<rect x=\"0\" y=\"%d\" width=\"1000\" height=\"%d\" class=\"layer\"/>\n", ly[i], lh[i]
        text(8, ly[i] + 26, "name", lname[i])
        text(8, ly[i] + 44, "note", lone[i])
        text(8, ly[i] + 58, "note", ltwo[i])
    }
    # The crates of a box, as many on a line as its width has room for.
    function paint_box(i,  n, a, k, y, line, room) {
        printf "<rect x=\"%d\" y=\"%d\" width=\"%d\" height=\"%d\" rx=\"5\" ", bx[i], by[i], bw[i], bh[i]
        printf "class=\"%s\"/>\n", bcolour[i]
        text(bx[i] + 9, by[i] + 19, "title", btitle[i])
        y = by[i] + 35
        if (bnote[i] != "") { text(bx[i] + 9, y, "note", bnote[i]); y += 18 } else y += 4
        room = int((bw[i] - 14) / 7.3)
        n = split(bcrates[i], a, " ")
        line = a[1]
        for (k = 2; k <= n; k++) {
            if (length(line " " a[k]) > room) { text(bx[i] + 9, y, "crate", line); y += 15; line = a[k] }
            else line = line " " a[k]
        }
        text(bx[i] + 9, y, "crate", line)
        if (y > by[i] + bh[i] - 4) fail("too little room in box " bid[i])
    }
    function paint_key(x, colour, s) {
        printf "<rect x=\"%d\" y=\"14\" width=\"16\" height=\"16\" rx=\"3\" class=\"%s\"/>\n", x, colour
        text(x + 23, 27, "note", s)
    }
    function paint(  i) {
        print "<svg xmlns=\"http://www.w3.org/2000/svg\" width=\"1000\" height=\"1044\" viewBox=\"0 0 1000 1044\""
        print "    font-family=\"DejaVu Sans, Verdana, sans-serif\">"
        print "<title>The crates by layer and family</title>"
        print "<!-- made by docs/architecture.sh from crates.txt: change that, not this -->"
        print "<style>"
        print "text { fill: #1a1a1a } .name { font-size: 14px; font-weight: bold }"
        print ".title { font-size: 12.5px; font-weight: bold } .note { font-size: 10.5px; fill: #444 }"
        print ".crate { font-size: 12px; font-family: DejaVu Sans Mono, Menlo, Consolas, monospace }"
        print "rect { stroke: #8a8a8a; stroke-width: 1 }"
        print ".layer { fill: #f5f5f5; stroke: none } .paper { fill: #ffffff; stroke: none }"
        print ".theory { fill: #dfe9fb } .store { fill: #e0f2e0 } .test { fill: #fcefcc } .beside { fill: #efe3f5 } .stamps { fill: #dcf1f3 }"
        print "polyline { fill: none; stroke: #444; stroke-width: 1.5; marker-end: url(#head) }"
        print "</style>"
        print "<defs><marker id=\"head\" viewBox=\"0 0 8 8\" refX=\"7\" refY=\"4\" markerWidth=\"6\" markerHeight=\"6\" orient=\"auto\">"
        print "<path d=\"M0,0 L8,4 L0,8 z\" fill=\"#444\"/></marker></defs>"
        print "<rect x=\"0\" y=\"0\" width=\"1000\" height=\"1044\" class=\"paper\"/>"
        for (i = 1; i <= L; i++) paint_layer(i)
        text(8, 27, "name", crates " crates")
        paint_key(104, "theory", "theory and meaning")
        paint_key(254, "store", "the store")
        paint_key(346, "test", "its test of soundness")
        paint_key(506, "beside", "traces, and programs beside the proof")
        print "<polyline points=\"772,22 802,22\"/>"
        text(809, 26, "note", "rests on (the main ways)")
        for (i = 1; i <= B; i++) paint_box(i)
        for (i = 1; i <= A; i++) printf "<polyline points=\"%s\"/>\n", apoints[i]
        print "</svg>"
    }

    BEGIN { table() }
    /^[a-z]/ {
        name = $1
        sub(/:.*/, "", name)
        known[name] = 1
        crates++
        if (!(name in home)) fail("in no box: " name)
        for (i = 2; i <= NF; i++) if ($i in home) rests[home[name], home[$i]] = 1
    }
    END {
        if (checked()) paint()
        exit bad
    }' crates.txt
}

names() {
    sed -n 's/^\([a-z_]*\)[ :].*/\1/p' crates.txt | LC_ALL=C sort
}

cited() {
    sed -n 's/^- `\([a-z_]*\)`: .*/\1/p' docs/ARCHITECTURE.md | LC_ALL=C sort
}

made=$(draw)
if [ "${1:-}" = check ]; then
    [ "$made" = "$(cat docs/architecture.svg)" ] || { echo "docs/architecture.svg: run docs/architecture.sh" >&2 && exit 1; }
    [ "$(names)" = "$(cited)" ] || { echo "docs/ARCHITECTURE.md: each crate of crates.txt must have one line" >&2 && exit 1; }
    exit 0
fi
printf '%s\n' "$made" >docs/architecture.svg
