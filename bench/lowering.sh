#!/bin/sh
# The times and the memory of `net` over large Filament designs, which this script makes, the best of five: at full size and
# at half of it, with their ratio. Each is to take under 10 s and 2 GB, and twice the size at most 2.3 times as long.
# Then `sim` of examples/mac.fil under 100,000 transactions, which is to take under 2 s.
#
# Then what control costs in netlists of Calyx designs, the examples and large ones: cells, assignments and bytes, and the registers
# of control with their bits. Where a program is named, `bench/lowering.sh OTHER`, its netlists are told beside: one of an older
# commit, say, whose control had a register of one bit for each token. A design of a weight near 1,000,000 is to be lowered in
# under 20 s, twice the size in at most 2.3 times as long, and rows are to run no slower than with OTHER.
top=$(cd "$(dirname "$0")/.." && pwd) || exit
"$top/filc" net "$top/examples/mac.fil" >/dev/null || exit
. "$top/bench/best.sh"
. "$top/bench/shapes.sh"
own=$program
other=$1

# $1 components, each with three instances, of which one is of the component before: every name is as deep as its place.
chain() {
    awk -v count="$1" '
        BEGIN {
            print "comp c0<G: 1>(@[G, G+1] a: 8) -> (@[G, G+1] o: 8) { n := new Not[8]<G>(a); o = n.out; }"
            for (i = 1; i < count; i++)
                print "comp c" i "<G: 1>(@[G, G+1] a: 8) -> (@[G, G+1] o: 8) { n := new Not[8]<G>(a); x := new c" i - 1 "<G>(n.out); o = x.o; }"
        }'
}

# $1 instances of a component that doubles twelve times: the weight is some 2^16 each.
doubling() {
    awk -v pairs="$1" '
        BEGIN {
            print "comp d0<G: 1>(@[G, G+1] a: 8) -> (@[G, G+1] o: 8) { n := new Not[8]<G>(a); o = n.out; }"
            for (i = 1; i < 13; i++)
                print "comp d" i "<G: 1>(@[G, G+1] a: 8) -> (@[G, G+1] o: 8) { x := new d" i - 1 "<G>(a); y := new d" i - 1 "<G>(x.o); o = y.o; }"
            print "comp main<G: 1>(@[G, G+1] a: 8) -> (@[G, G+1] o: 8) {"
            last = "a"
            for (i = 0; i < pairs; i++) { print "  p" i " := new d12<G>(" last ");"; last = "p" i ".o" }
            print "  o = " last ";\n}"
        }'
}

# One component of $1 invocations, each of an instance of its own.
invocations() {
    awk -v count="$1" '
        BEGIN {
            print "comp Wide<G: 1>(@interface[G] go: 1, @[G, G+1] a: 16) -> (@[G, G+1] out: 16) {"
            last = "a"
            for (i = 0; i < count; i++) { print "  v" i " := new Add[16]<G>(" last ", a);"; last = "v" i ".out" }
            print "  out = " last ";\n}"
        }'
}

# $1 uses of units that are shared, at offsets up to 4,095.
offsets() {
    awk -v count="$1" '
        BEGIN {
            print "comp Late<G: 4096>(@interface[G] go: 1, @[G, G+4096] a: 8) -> () {"
            for (i = 0; i < count; i++) {
                if (i % 4 == 0) print "  X" i " := new Not[8];"
                print "  x" i " := X" i - i % 4 "<G+" (4095 - (i * 997) % 4096) ">(a);"
            }
            print "}"
        }'
}

# $1 transactions, which start one row after another.
transactions() {
    awk -v count="$1" '
        BEGIN {
            print "{\"version\":1,\"transactions\":["
            for (i = 0; i < count; i++) {
                inputs = "{\"a\":" i % 256 ",\"b\":" (i * 7) % 256 ",\"c\":" (i * 77) % 256 "}"
                print "{\"start\":" i ",\"inputs\":" inputs "}" (i < count - 1 ? "," : "")
            }
            print "]}"
        }'
}

# Prints the times of `net` of the shape $1 at half of the size $2 and at all of it.
net() {
    "$1" $(($2 / 2)) >"$work/half.fil" || exit
    "$1" "$2" >"$work/whole.fil" || exit
    half=$(best net "$work/half.fil") || exit
    whole=$(best net "$work/whole.fil") || exit
    bytes=$("$program" net "$work/whole.fil" | wc -c)
    echo "net $1 $2: half $half ms, whole $whole ms, $(memory net "$work/whole.fil") MB, $bytes bytes of netlist"
    awk "BEGIN { printf \"ratio: %.2f\\n\", $whole / $half }"
}

net chain 9000
net doubling 14
net invocations 20000
net offsets 16000

transactions 100000 >"$work/many.json"
echo "sim mac.fil with 100,000 transactions: $(best sim "$top/examples/mac.fil" "$work/many.json") ms, $(memory sim "$top/examples/mac.fil" "$work/many.json") MB"

# Prints what the program $1 makes of the design $2, whose name is $3.
cost() {
    "$1" net "$2" >"$work/net" || exit
    awk -v name="$3" '
        /^(cell|ext) / { cells++ }
        /^set / { sets++ }
        /^cell c\$[^ ]* std_reg/ { registers++; split($0, part, "std_reg"); gsub(/[^0-9]/, "", part[2]); bits += part[2] }
        { bytes += length($0) + 1 }
        END { printf "%s: %d cells, %d assignments, %d bytes; %d registers of control with %d bits\n", name, cells, sets, bytes, registers, bits }' "$work/net"
}

# The same of both programs.
compare() {
    cost "$own" "$1" "$2"
    if [ -n "$other" ]; then cost "$other" "$1" "$2, by the other program"; fi
}

# Prints the times of $2 rows of the design $1, under the stimulus $3, with both programs.
rows() {
    echo "sim $1: $(best sim "$2" "$3") ms"
    if [ -n "$other" ]; then
        program=$other
        echo "sim $1, by the other program: $(best sim "$2" "$3") ms"
        program=$own
    fi
}

for design in "$top"/examples/*.futil; do
    compare "$design" "$(basename "$design")"
done
for shape in "enables 20000" "together 2000" "loops 1600" "levels 57"; do
    $shape >"$work/$(echo "$shape" | tr ' ' '_').futil" || exit
    compare "$work/$(echo "$shape" | tr ' ' '_').futil" "$shape"
done
half=$(levels 28 >"$work/half.futil" && best net "$work/half.futil") || exit
whole=$(best net "$work/levels_57.futil") || exit
echo "net levels 57: half $half ms, whole $whole ms, $(memory net "$work/levels_57.futil") MB"
awk "BEGIN { printf \"ratio: %.2f\\n\", $whole / $half }"

loops 20 >"$work/loops.futil" || exit
echo '{"version":1,"cycles":50000,"inputs":[{"from":0,"set":{"go":1,"a":1}}]}' >"$work/loops.json"
rows "loops 20, 50,000 rows" "$work/loops.futil" "$work/loops.json"
for design in double cube divisor; do
    rows "$design.futil" "$top/examples/$design.futil" "$top/examples/$design.json"
done
