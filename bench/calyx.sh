#!/bin/sh
# The times of `check` over large Calyx designs, which this script makes, the best of five each: at full size and at half
# of it, with their ratio. Each is to take under 2 s, and twice the size at most 2.3 times as long. The full sizes are near
# the limit of a source, 1,048,576 bytes.
top=$(cd "$(dirname "$0")/.." && pwd) || exit
"$top/filc" check "$top/examples/total.futil" || exit
. "$top/bench/best.sh"

# $1 components, each with a group and control, of which each invokes the one before.
components() {
    awk -v comps="$1" '
        BEGIN {
            for (i = 0; i < comps; i++) {
                print "component stage" i "(a: 8) -> (out: 8) {\n  cells {\n    r = std_reg(8);\n    sum = std_add(8);"
                if (i) print "    before = stage" i - 1 "();"
                print "  }\n  wires {\n    group add {\n      sum.left = a;"
                print "      sum.right = " (i ? "before.out" : "8\047d1") ";"
                print "      r.in = sum.out;\n      r.write_en = 1\047d1;\n      add[done] = r.done;\n    }\n    out = r.out;\n  }"
                print "  control {\n    seq {"
                if (i) print "      invoke before(a = a)();"
                print "      add;\n    }\n  }\n}"
            }
        }'
}

# One component of $1 groups, which control enables in turn.
groups() {
    awk -v count="$1" '
        BEGIN {
            print "component main() -> () { cells { r = std_reg(8); } wires {"
            for (i = 0; i < count; i++) print "group g" i " { g" i "[done] = r.done; }"
            print "} control {"
            for (i = 0; i < count; i++) print "g" i ";"
            print "} }"
        }'
}

# One component of $1 cells, each of which reads the one before under a guard; the forms of guards take turns.
cells() {
    awk -v count="$1" '
        BEGIN {
            print "component main(go: 1, a: 8) -> (out: 8) { cells {"
            for (i = 0; i < count; i++) print "w" i " = std_wire(8);"
            print "} wires {"
            from = "a"
            for (i = 0; i < count; i++) {
                form = i % 4
                guard = "go"
                if (form == 1) guard = from " != 8\047d0"
                if (form == 2) guard = "!(" from " >= a)"
                if (form == 3) guard = "!go & (a <= 8\047d9 | go)"
                print "w" i ".in = " guard " ? " from ";"
                from = "w" i ".out"
            }
            print "out = " from ";\n} }"
        }'
}

# Control of $1 statements in one `seq`.
statements() {
    awk -v count="$1" '
        BEGIN {
            print "component main() -> () { cells { r = std_reg(8); } wires { group set { r.in = 8\047d1; r.write_en = 1\047d1; set[done] = r.done; } } control { seq {"
            for (i = 0; i < count; i++) print (i % 2 ? "set;" : "invoke r(in = r.out)();")
            print "} } }"
        }'
}

# Control sections whose statements nest 60 deep, each kind in turn, in $1 components.
nested() {
    awk -v comps="$1" '
        BEGIN {
            split("seq {|par {|if a {|while a {|if a { } else {", heads, "|")
            for (i = 0; i < comps; i++) {
                print "component deep" i "(a: 1) -> () { cells { } wires { group g { g[done] = a; } } control {"
                for (depth = 0; depth < 60; depth++) print heads[(i + depth) % 5 + 1]
                print "g; g;"
                for (depth = 0; depth < 60; depth++) printf "}"
                print " } }"
            }
        }'
}

# $1 components, each of which has two cells of the one before: the last one has more parts than a 64 bit number can count.
doubling() {
    awk -v comps="$1" '
        BEGIN {
            print "component part0(a: 1) -> (o: 1) { cells { } wires { o = a; } }"
            for (i = 1; i < comps; i++)
                print "component part" i "(a: 1) -> (o: 1) { cells { x = part" i - 1 "(); y = part" i - 1 "(); } wires { x.a = a; y.a = x.o; o = y.o; } }"
        }'
}

# $1 components, each of which has a cell of each of 16 components after it: names of later ones, and many edges.
later() {
    awk -v comps="$1" '
        BEGIN {
            for (i = 0; i < comps; i++) {
                print "component user" i "() -> () { cells {"
                for (j = i + 1; j < comps && j < i + 17; j++) print "c" j " = user" j "();"
                print "} wires { } }"
            }
        }'
}

# Prints the times of `check` of the shape $1 at half of the size $2 and at all of it, and what is said.
check() {
    "$1" $(($2 / 2)) >"$work/half.futil" || exit
    "$1" "$2" >"$work/whole.futil" || exit
    half=$(best check "$work/half.futil") || exit
    whole=$(best check "$work/whole.futil") || exit
    bytes=$(wc -c <"$work/whole.futil")
    echo "check $1 $2: half $half ms, whole $whole ms, $bytes bytes: $("$program" check "$work/whole.futil" 2>&1)"
    awk "BEGIN { printf \"ratio: %.2f\\n\", $whole / $half }"
}

# The largest source is read, and one byte more is refused.
largest() {
    components 2500 >"$work/text.futil" || exit
    for bytes in 1048576 1048577; do
        awk -v more="$((bytes - $(wc -c <"$work/text.futil")))" '{ print } END { printf "%*s", more, "" }' "$work/text.futil" >"$work/padded.futil" || exit
        echo "check of $(wc -c <"$work/padded.futil") bytes: $("$program" check "$work/padded.futil" 2>&1)"
    done
}

largest
check components 2500
check groups 20000
check cells 14000
check statements 20000
check nested 1200
check doubling 8000
check later 2600
