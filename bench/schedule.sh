#!/bin/sh
# The times and the memory of `sched` over Calyx designs, which this script makes. The product of two lists of eight numbers, the
# best of five. One run each of 1,000,000 rows: of 100 groups under loops in loops, and of ten outputs beside five groups that act
# in every row; each is to take under 60 s and 1 GB. Then 500 instances that all run, the best of five: twice the rows are to take
# at most 2.3 times as long.
top=$(cd "$(dirname "$0")/.." && pwd) || exit
"$top/filc" sched "$top/examples/double.futil" "$top/examples/double.json" >/dev/null || exit
. "$top/bench/best.sh"

# The product of two lists of eight numbers.
product() {
    cat <<'PRODUCT'
component main() -> () {
  cells {
    @external a = std_mem_d1(32, 8, 3);
    @external b = std_mem_d1(32, 8, 3);
    @external o = std_mem_d1(32, 1, 1);
    i = std_reg(4); s = std_reg(32); less = std_lt(4); next = std_add(4);
    sum = std_add(32); low = std_slice(4, 3); m = std_mult_pipe(32);
  }
  wires {
    comb group more { less.left = i.out; less.right = 4'd8; }
    group multiply {
      low.in = i.out; a.addr0 = low.out; b.addr0 = low.out;
      m.left = a.read_data; m.right = b.read_data; m.go = 1'd1; multiply[done] = m.done;
    }
    group add { sum.left = s.out; sum.right = m.out; s.in = sum.out; s.write_en = 1'd1; add[done] = s.done; }
    group up { next.left = i.out; next.right = 4'd1; i.in = next.out; i.write_en = 1'd1; up[done] = i.done; }
    group store { o.write_data = s.out; o.write_en = 1'd1; store[done] = o.done; }
  }
  control {
    while less.out with more { multiply; par { add; up; } }
    store;
  }
}
PRODUCT
}

# $1 groups, each of which writes a register of its own, under loops that are three deep and turn ten times each: half of the
# groups one after another in the innermost loop, the others at once in the one round it.
loops() {
    awk -v count="$1" '
        function counter(n) {
            print "comb group more_" n " { less_" n ".left = " n ".out; less_" n ".right = 4\047d10; }"
            print "group clear_" n " { " n ".in = 4\047d0; " n ".write_en = 1\047d1; clear_" n "[done] = " n ".done; }"
            print "group step_" n " { next_" n ".left = " n ".out; next_" n ".right = 4\047d1;"
            print "  " n ".in = next_" n ".out; " n ".write_en = 1\047d1; step_" n "[done] = " n ".done; }"
        }
        function turns(n) { return "clear_" n "; while less_" n ".out with more_" n " {" }
        BEGIN {
            split("i j k", counters, " ")
            print "component main() -> (out: 8) { cells {"
            for (n = 1; n <= 3; n++) print counters[n] " = std_reg(4); less_" counters[n] " = std_lt(4); next_" counters[n] " = std_add(4);"
            for (g = 0; g < count; g++) print "r" g " = std_reg(8);"
            print "} wires { out = r0.out;"
            for (n = 1; n <= 3; n++) counter(counters[n])
            for (g = 0; g < count; g++) print "group g" g " { r" g ".in = 8\047d" (g + 1) % 256 "; r" g ".write_en = 1\047d1; g" g "[done] = r" g ".done; }"
            print "} control {"
            print turns("i"), turns("j"), turns("k")
            for (g = 0; g < count / 2; g++) print "g" g ";"
            print "step_k; } par {"
            for (; g < count; g++) print "g" g ";"
            print "} step_j; } step_i; } } }"
        }'
}

# Ten outputs that count by different steps, and $1 groups that act in every row.
outputs() {
    awk -v count="$1" '
        BEGIN {
            printf "component main() -> (o0: 32"
            for (o = 1; o < 10; o++) printf ", o%d: 32", o
            print ") { cells {"
            for (o = 0; o < 10; o++) print "r" o " = std_reg(32); a" o " = std_add(32);"
            for (g = 0; g < count; g++) print "w" g " = std_wire(1);"
            print "} wires {"
            for (o = 0; o < 10; o++) {
                print "a" o ".left = r" o ".out; a" o ".right = 32\047d" o * o + 1 ";"
                print "r" o ".in = a" o ".out; r" o ".write_en = 1\047d1; o" o " = r" o ".out;"
            }
            for (g = 0; g < count; g++) print "group g" g " { w" g ".in = 1\047d1; g" g "[done] = 1\047d0; }"
            print "} control { par {"
            for (g = 0; g < count; g++) print "g" g ";"
            print "} } }"
        }'
}

# $1 instances, which are invoked at once, again and again.
instances() {
    awk -v count="$1" '
        BEGIN {
            print "component step(n: 8) -> (o: 8) { cells { r = std_reg(8); a = std_add(8); } wires {"
            print "group add { a.left = r.out; a.right = n; r.in = a.out; r.write_en = 1\047d1; add[done] = r.done; }"
            print "o = r.out; } control { add; add; } }"
            print "component main() -> (out: 8) { cells {"
            for (i = 0; i < count; i++) print "c" i " = step();"
            print "} wires { out = c0.o; } control { par {"
            for (i = 0; i < count; i++) print "invoke c" i "(n = 8\047d" i % 256 ")();"
            print "} } }"
        }'
}

# A stimulus of $1 rows with go.
held() {
    echo "{\"version\":1,\"cycles\":$1,\"inputs\":[{\"from\":0,\"set\":{\"go\":1}}]}"
}

# Prints the time of one run of the shape $1 of size $2 for $3 rows, its memory, and the last line of the report.
once() {
    "$1" "$2" >"$work/design.futil" || exit
    held "$3" >"$work/rows.json"
    begin=$(date +%s%N)
    "$program" sched "$work/design.futil" "$work/rows.json" >"$work/report" || exit
    took=$((($(date +%s%N) - begin) / 1000000))
    memory=$(memory sched "$work/design.futil" "$work/rows.json")
    echo "sched $1 $2, $3 rows: $took ms, $memory MB, $(wc -c <"$work/report") bytes: $(tail -n 1 "$work/report")"
}

# Prints the times of the shape $1 of size $2 for half of the rows $3 and for all of them.
twice() {
    "$1" "$2" >"$work/design.futil" || exit
    held $(($3 / 2)) >"$work/half.json"
    held "$3" >"$work/whole.json"
    half=$(best sched "$work/design.futil" "$work/half.json") || exit
    whole=$(best sched "$work/design.futil" "$work/whole.json") || exit
    echo "sched $1 $2, $3 rows: half $half ms, whole $whole ms, $(memory sched "$work/design.futil" "$work/whole.json") MB"
    awk "BEGIN { printf \"ratio: %.2f\\n\", $whole / $half }"
}

product >"$work/product.futil" || exit
echo '{"version":1,"cycles":60,"inputs":[{"from":0,"set":{"go":1}}],"memories":{"a":[1,2,3,4,5,6,7,8],"b":[8,7,6,5,4,3,2,1]}}' >"$work/product.json"
took=$(best sched "$work/product.futil" "$work/product.json") || exit
echo "sched product, 60 rows: $took ms: $("$program" sched "$work/product.futil" "$work/product.json" | tail -n 1)"

once loops 100 1000000
once outputs 5 1000000
twice instances 500 10000
