#!/bin/sh
# What a row takes in four netlists, which this script makes: `big`, 1,000 registers and 1,000 adders behind 6,000 guarded
# assignments; `deep`, a chain of 1,000 adders; `soak`, the netlist of `soak`; `ctl`, that of a loop in a loop, examples/sums.futil.
# A counter in each takes the place of the inputs. A row is what `rows` takes for all of them, less what it takes to print as
# many of a netlist with that counter alone. Beside it stand the runs of Verilator and of Icarus Verilog, where they are installed,
# and the whole way from the text to the last printed row, whose bytes are compared. Last, what it takes to begin a large run.
# A row is to take at most 5 times as long as in Verilator (in `big`, `soak` and `ctl`), and in Icarus Verilog 100 times as long
# (40 in `ctl`); the whole way of `soak` and `ctl` is to be 10 times as quick as Verilator's; to begin a run of 100,000 cells is to take
# under 2 s, and twice the size at most 2.3 times as long.
#
# usage: row.sh [EARLIER]
#
# EARLIER is the program of an earlier commit, to be measured beside this one.
top=$(cd "$(dirname "$0")/.." && pwd) || exit
"$top/filc" rows "$top/examples/counter.net" 0 || exit
earlier=${1:+$(readlink -f "$1")}
. "$top/bench/best.sh"

has() { command -v "$1" >/dev/null; }

for tool in verilator iverilog; do
    if has "$tool"; then echo "found: $tool"; else echo "skipped: $tool"; fi
done

# The milliseconds that the words take, the best of seven.
least() {
    shortest=
    for turn in 1 2 3 4 5 6 7; do
        begin=$(date +%s%N)
        "$@" >/dev/null || exit
        took=$((($(date +%s%N) - begin) / 1000000))
        if [ -z "$shortest" ] || [ "$took" -lt "$shortest" ]; then shortest=$took; fi
    done
    echo "$shortest"
}

# $1 registers and as many adders. Two of 16 selected numbers reach each.
big() {
    awk -v count="$1" '
        function below(n) { seed = seed * 16807 % 2147483647; return seed % n }
        function put(port, guard, source) { print "set " port " = " guard " ? " source }
        BEGIN {
            seed = 1
            print "net big\nin x 32\nout q 32\nwire s 4\nwire g 1\ncell sel fil_slice 32 31 28\ncell go fil_slice 32 27 27"
            for (k = 0; k < count; k++) print "cell r" k " std_reg 32\ncell a" k " std_add 32"
            print "set sel.in = x\nset go.in = x\nset s = sel.out\nset g = go.out"
            for (k = 0; k < count; k++) {
                i = below(16)
                j = (i + 1 + below(15)) % 16
                one = "(s == 4\047d" i ")"
                two = "(s == 4\047d" j ")"
                put("a" k ".left", two, "r" below(count) ".out")
                put("a" k ".left", "!" two, "x")
                put("a" k ".right", one, "r" below(count) ".out")
                put("r" k ".in", one, "a" k ".out")
                put("r" k ".in", two, "a" below(count) ".out")
                put("r" k ".write_en", "(g & !" two ")", "1\047d1")
            }
            print "set q = r0.out\nend"
        }'
}

# A chain of $1 adders.
deep() {
    awk -v count="$1" '
        BEGIN {
            print "net deep\nin x 32\nout q 32"
            for (k = 0; k < count; k++) print "cell a" k " std_add 32"
            print "set a0.left = x"
            for (k = 1; k < count; k++) print "set a" k ".left = a" k - 1 ".out"
            for (k = 0; k < count; k++) print "set a" k ".right = x"
            print "set q = a" count - 1 ".out\nend"
        }'
}

soak() { "$program" soak 0 | sed '/^$/,$d'; }
ctl() { "$program" net "$top/examples/sums.futil"; }

# The netlist on standard input, with a counter in the place of its inputs: each of one bit is 1, and each other one has 32.
counted() {
    awk '
        /^in / { wires = wires "wire " $2 " " $3 "\n"; sets = sets "set " $2 " = " ($3 == 1 ? "1\047d1" : "tick.out") "\n"; next }
        /^(cell|ext|wire|set) / { printf "%s", wires; wires = "" }
        /^set / && !counts {
            counts = 1
            print "cell tick std_reg 32\ncell tock std_add 32\nset tock.left = tick.out\nset tock.right = 32\047d2654435769"
            printf "set tick.in = tock.out\nset tick.write_en = 1\047d1\n%s", sets
        }
        { print }'
}

# The counter, with the outputs of the netlist $1.
bare() {
    awk '
        /^(net|out) / { print }
        /^out / && $3 < 32 { cells = cells "cell " $2 "$cut std_slice 32 " $3 "\n"; sets = sets "set " $2 "$cut.in = tick.out\nset " $2 " = " $2 "$cut.out\n" }
        /^out / && $3 == 32 { sets = sets "set " $2 " = tick.out\n" }
        END { printf "%s%send\n", cells, sets }' "$1" | counted
}

# A program that runs the netlist $1 in Verilator for as many rows as its first word says, and prints them where there is a second.
runner() {
    awk '
        /^out / { form = form " " $2 "=%llu"; shown = shown ", (unsigned long long)top." $2; sum = sum " + top." $2 }
        END {
            print "#include \"Vrow.h\"\n#include <cstdio>\n#include <cstdlib>"
            print "int main(int count, char** words) {\n  Vrow top;\n  unsigned long long sum = 0;"
            print "  for (int row = 0; row < atoi(words[1]); row++) {\n    top.__024clk = 0;\n    top.eval();"
            print "    if (count > 2) printf(\"%d" form "\\n\", row" shown ");\n    sum = sum * 31" sum ";"
            print "    top.__024clk = 1;\n    top.eval();\n  }\n  if (count == 2) printf(\"%llu\\n\", sum);\n}"
        }' "$1"
}

# Builds what runs the netlist $1 in Verilator.
build() {
    "$program" verilog "$work/$1.net" >"$work/$1.v" || exit
    runner "$work/$1.net" >"$work/$1.cpp" || exit
    verilator --cc --exe --build -O3 --x-assign fast --x-initial fast --noassert -Wno-fatal -CFLAGS -O3 --prefix Vrow \
        --top-module "$(sed -n 's/^net //p' "$work/$1.net")" --Mdir "$work/$1" -o row "$work/$1.v" "$work/$1.cpp" >"$work/said" 2>&1 ||
        { cat "$work/said" && exit 1; }
}

# The nanoseconds of each of $2 rows that take $1 milliseconds.
nanoseconds() { awk "BEGIN { printf \"%.0f\", $1 * 1000000 / $2 }"; }

# How many times $2 is in $1.
ratio() { awk "BEGIN { printf \"%.1f\", $1 / $2 }"; }

# The nanoseconds of a row of the netlist $2 in $3 rows of the program $1.
row() {
    all=$(least "$1" rows "$work/$2.net" "$3") || exit
    printed=$(least "$1" rows "$work/bare.net" "$3") || exit
    nanoseconds "$((all - printed))" "$3"
}

# The nanoseconds of a row in $2 rows of the netlist $1 in Icarus Verilog.
icarus() {
    printf '%s\n' "module bench; reg clk = 0; \\$(sed -n 's/^net //p' "$work/$1.net")  it(.\\\$clk (clk));
        initial begin repeat ($2) begin #1 clk = 1; #1 clk = 0; end \$finish; end endmodule" >"$work/bench.v"
    "$program" verilog "$work/$1.net" >"$work/text.v" || exit
    iverilog -s bench -o "$work/icarus" "$work/bench.v" "$work/text.v" || exit
    took=$(least vvp -n "$work/icarus") || exit
    nanoseconds "$took" "$2"
}

# Measures $2 rows of the netlist $1, with a tenth as many in Icarus Verilog.
measure() {
    "$1" 1000 | counted >"$work/$1.net" || exit
    bare "$work/$1.net" >"$work/bare.net" || exit
    ours=$(row "$program" "$1" "$2") || exit
    echo "$1, $(grep -c '^set ' "$work/$1.net") assignments, $2 rows: $ours ns a row"
    if [ -n "$earlier" ]; then
        theirs=$(row "$earlier" "$1" "$2") || exit
        echo "  in the earlier program $theirs ns: $(ratio "$theirs" "$ours") times as long"
    fi
    if has iverilog; then
        theirs=$(icarus "$1" "$(($2 / 10))") || exit
        echo "  in Icarus Verilog $theirs ns: $(ratio "$theirs" "$ours") times as long"
    fi
    if has verilator; then beside_verilator "$1" "$2" || exit; fi
}

# The same in Verilator, and the whole way.
beside_verilator() {
    begin=$(date +%s%N)
    build "$1"
    "$work/$1/row" "$2" prints >"$work/theirs" || exit
    built=$((($(date +%s%N) - begin) / 1000000))
    theirs=$(nanoseconds "$(least "$work/$1/row" "$2")" "$2") || exit
    echo "  in Verilator $theirs ns: here $(ratio "$ours" "$theirs") times as long"
    whole=$(least "$program" rows "$work/$1.net" "$2") || exit
    "$program" rows "$work/$1.net" "$2" | head -n "$2" | cmp - "$work/theirs" || exit
    echo "  the whole way $whole ms, in Verilator $built ms: $(ratio "$built" "$whole") times as long, and the same rows"
}

# What it takes to begin a run of the netlist $1: the first row, less `check`.
begun() {
    first=$(least "$program" rows "$1" 1) || exit
    read=$(least "$program" check "$1") || exit
    echo $((first - read))
}

measure soak 1000000
measure ctl 1000000
measure big 20000
measure deep 2000

big 25000 | counted >"$work/half.net" || exit
big 50000 | counted >"$work/whole.net" || exit
half=$(begun "$work/half.net") || exit
whole=$(begun "$work/whole.net") || exit
echo "to begin a run of $(grep -c '^cell ' "$work/whole.net") cells and $(grep -c '^set ' "$work/whole.net") assignments: half $half ms, whole $whole ms"
echo "ratio: $(ratio "$whole" "$half")"
