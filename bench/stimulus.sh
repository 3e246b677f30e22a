#!/bin/sh
# The times of the commands that take a stimulus, with large ones, which this script makes, the best of five each: at
# full size and at half of it, with their ratio, which is to be at most 2.3. The full sizes are the limits: 100,000
# transactions or entries of inputs, in some 16 MiB.
# `sim` of 2,000 cells and 6,000 guarded assignments beside `rows` of the same, with their ratio.
top=$(cd "$(dirname "$0")/.." && pwd) || exit
"$top/filc" flow "$top/examples/mac.fil" "$top/examples/mac.json" || exit
. "$top/bench/best.sh"
. "$top/bench/groups.sh"

# The values of three inputs of 128 bits in the entry i, some 130 bytes.
values='
    function value(name, i) { return "\"" name "\":\"" sprintf("1%010d%09d%09d%09d", i, i * 7 + 1, i * 77 + 11, i * 777 + 111) "\"" }
    function values(i) { return "{" value("a", i) "," value("b", i + 1) "," value("c", i + 2) "}" }'

# $1 transactions, which start one row after another.
transactions() {
    awk -v count="$1" "$values"'
        BEGIN {
            print "{\"version\":2,\"transactions\":["
            for (i = 0; i < count; i++) print "{\"start\":" i ",\"inputs\":" values(i) "}" (i < count - 1 ? "," : "")
            print "]}"
        }'
}

# $1 entries of inputs, one for each row.
entries() {
    awk -v count="$1" "$values"'
        BEGIN {
            print "{\"version\":2,\"cycles\":" count ",\"inputs\":["
            for (i = 0; i < count; i++) print "{\"from\":" i ",\"set\":" values(i) "}" (i < count - 1 ? "," : "")
            print "]}"
        }'
}

# $1 transactions of few bytes each.
small() {
    awk -v count="$1" '
        BEGIN {
            print "{\"version\":1,\"transactions\":["
            for (i = 0; i < count; i++) {
                inputs = "{\"a\":" i % 256 ",\"b\":" (i * 7) % 256 ",\"c\":" (i * 77) % 256 "}"
                print "{\"start\":" i ",\"inputs\":" inputs "}" (i < count - 1 ? "," : "")
            }
            print "]}"
        }'
}

# One entry that stands for $1 transactions.
repeated() {
    echo "{\"version\":2,\"transactions\":[{\"start\":0,\"inputs\":{\"a\":2,\"b\":3,\"c\":1},\"repeat\":{\"times\":$1,\"every\":1}}]}"
}

# $1 rows, of which the inputs `a` and `go` are set in each.
driven() {
    awk -v rows="$1" '
        BEGIN {
            print "{\"version\":1,\"cycles\":" rows ",\"inputs\":["
            for (i = 0; i < rows; i++) print "{\"from\":" i ",\"set\":{\"a\":" i % 65536 ",\"go\":" i % 2 "}}" (i < rows - 1 ? "," : "")
            print "]}"
        }'
}

# $1 rows, in which nothing is set.
plain() {
    echo "{\"version\":1,\"cycles\":$1,\"inputs\":[]}"
}

# A sum of three inputs of 128 bits.
sum() {
    printf '%s\n' 'net sum' 'in a 128' 'in b 128' 'in c 128' 'out q 128' 'cell one std_add 128' 'cell two std_add 128' \
        'set one.left = a' 'set one.right = b' 'set two.left = one.out' 'set two.right = c' 'set q = two.out' end
}

# Prints the times of the command $1 on the file $2, with the stimulus of the shape $3 at half of the size $4 and at all
# of it, and the last line of what is said.
run() {
    "$3" $(($4 / 2)) >"$work/half.json" || exit
    "$3" "$4" >"$work/whole.json" || exit
    half=$(best "$1" "$2" "$work/half.json") || exit
    whole=$(best "$1" "$2" "$work/whole.json") || exit
    bytes=$(wc -c <"$work/whole.json")
    echo "$1 $3 $4: half $half ms, whole $whole ms, $bytes bytes: $("$program" "$1" "$2" "$work/whole.json" 2>&1 | tail -n 1)"
    awk "BEGIN { printf \"ratio: %.2f\\n\", $whole / $half }"
}

sed 's/\[8\]/[128]/g; s/: 8/: 128/g' "$top/examples/mac.fil" >"$work/wide.fil" || exit
sum >"$work/sum.net" || exit
run flow "$work/wide.fil" transactions 100000
run sim "$work/sum.net" entries 100000
run flow "$top/examples/mac.fil" small 100000
run timeline "$top/examples/mac.fil" small 100000
run flow "$top/examples/mac.fil" repeated 100000

rows=5000
groups 67 1 >"$work/groups.net" || exit
run sim "$work/groups.net" driven "$rows"
run sim "$work/groups.net" plain "$rows"
alone=$(best rows "$work/groups.net" "$rows") || exit
echo "rows of the same, $rows rows: $alone ms"
awk "BEGIN { printf \"sim beside rows: %.2f\\n\", $whole / $alone }"
