#!/bin/sh
# The times of `check` and `rows` over large netlists, which this script makes, the best of five each.
# `check` of each shape at full size and at half of it, with their ratio: under 6 s, and at most 2.3.
# `rows` of 2,000 cells and 6,000 guarded assignments, with the port evaluations a second: 25 million or more.
top=$(cd "$(dirname "$0")/.." && pwd) || exit
"$top/filc" rows "$top/examples/counter.net" 0 || exit
. "$top/bench/best.sh"
. "$top/bench/groups.sh"

# $1 wires with long names, each driven from the one before under a guard; the forms of guards take turns.
text() {
    awk -v wires="$1" '
        function name(i) { return sprintf("pipeline.stage.w%06d", i) }
        BEGIN {
            print "net text\nin go 1\nin a 16\nout q 16"
            for (i = 0; i < wires; i++) print "wire " name(i) " 16"
            print "set " name(0) " = a"
            for (i = 1; i < wires; i++) {
                from = name(i - 1)
                form = i % 5
                guard = "go"
                if (form == 1) guard = "(" from " != 16\047d0)"
                if (form == 2) guard = "!(" from " >= a)"
                if (form == 3) guard = "(!go & (a <= 16\047d" i % 60000 "))"
                if (form == 4) guard = "(go | !go | 1\047d1)"
                print "set " name(i) " = " guard " ? " from
            }
            print "set q = " name(wires - 1) "\nend"
        }'
}

# $1 wires, each read by the next; in reverse order where $2 is 1.
chain() {
    awk -v wires="$1" -v reverse="$2" '
        function place(i) { return reverse ? wires - 1 - i : i }
        BEGIN {
            print "net chain\nin a 8\nout q 8"
            for (i = 0; i < wires; i++) print "wire w" place(i) " 8"
            for (i = 0; i < wires; i++) {
                at = place(i)
                print "set w" at " = " (at ? "w" at - 1 : "a")
            }
            print "set q = w" wires - 1 "\nend"
        }'
}

# Prints the times of `check` of the shape $1 at half of the size $2 and at all of it; what follows goes to the shape.
check() {
    shape=$1
    size=$2
    shift 2
    "$shape" $((size / 2)) "$@" >"$work/half.net" || exit
    "$shape" "$size" "$@" >"$work/whole.net" || exit
    half=$(best check "$work/half.net") || exit
    whole=$(best check "$work/whole.net") || exit
    bytes=$(wc -c <"$work/whole.net")
    echo "check $shape $size $*: half $half ms, whole $whole ms, $bytes bytes"
    awk "BEGIN { printf \"ratio: %.2f\\n\", $whole / $half }"
}

# The netlist $1 with a name so long that its text has $2 bytes.
padded() {
    awk -v more="$(($2 - $(wc -c <"$1")))" '
        NR == 1 { while (length(pad) < more) pad = pad "x"; $0 = $0 pad }
        { print }' "$1"
}

# The largest source is read, and one byte more is refused.
largest() {
    text 149000 >"$work/text.net" || exit
    for bytes in 16777216 16777217; do
        padded "$work/text.net" "$bytes" >"$work/padded.net" || exit
        echo "check of $(wc -c <"$work/padded.net") bytes: $("$program" check "$work/padded.net" 2>&1)"
    done
}

largest
check text 149000
check groups 3333 0
check chain 100000 0
check chain 100000 1

rows=5000
groups 67 1 >"$work/guarded.net" || exit
assignments=$(grep -c '^set ' "$work/guarded.net")
took=$(best rows "$work/guarded.net" "$rows") || exit
echo "rows of $assignments guarded assignments, $rows rows: $took ms"
awk "BEGIN { printf \"million port evaluations a second: %.1f\\n\", $rows * $assignments / $took / 1000 }"
