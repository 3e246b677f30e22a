#!/bin/sh
# The times of `check` over large Filament designs, which this script makes, the best of five each: at full size and
# at half of it, with their ratio. Each is to take under 3 s, and twice the size at most 2.3 times as long.
top=$(cd "$(dirname "$0")/.." && pwd) || exit
"$top/filc" check "$top/examples/mac.fil" || exit
. "$top/bench/best.sh"

# $1 components of ten statements, each of which uses the one before.
components() {
    awk -v comps="$1" '
        function signature(i) {
            return "comp Stage" i "<G: 1>(@interface[G] go: 1, @[G, G+1] a: 8, @[G, G+1] b: 8, @[G, G+1] c: 8) -> (@[G+2, G+3] out: 8) {"
        }
        BEGIN {
            for (i = 0; i < comps; i++) {
                print signature(i)
                print "  M := new FastMult[8];\n  Early := new Delay[8];\n  Late := new Delay[8];\n  A := new Add[8];"
                print "  product := M<G>(a, b);\n  c1 := Early<G>(c);\n  c2 := Late<G+1>(c1.out);\n  sum := A<G+2>(product.out, c2.out);"
                if (i) print "  before := new Stage" i - 1 "<G+2>(sum.out, c2.out, 8\047d3);"
                print "  out = sum.out;\n}"
            }
        }'
}

# One component of $1 statements: instances with invocations, each of which reads the two before.
statements() {
    awk -v count="$1" '
        BEGIN {
            print "comp Long<G: 1>(@interface[G] go: 1, @[G, G+1] v0: 16, @[G, G+1] v1: 16) -> (@[G, G+1] out: 16) {"
            one = "v0"; two = "v1"
            for (i = 2; i < count + 1; i++) {
                print "  v" i " := new Add[16]<G>(" one ", " two ");"
                one = two; two = "v" i ".out"
            }
            print "  out = " two ";\n}"
        }'
}

# $1 invocations of half as many instances.
shared() {
    awk -v count="$1" '
        BEGIN {
            print "comp Shared<G: 2>(@interface[G] go: 1, @[G, G+2] a: 8) -> () {"
            for (i = 0; i < count / 2; i++) print "  X" i " := new Not[8];\n  x" i " := X" i "<G>(a);\n  y" i " := X" i "<G+1>(a);"
            print "}"
        }'
}

# $1 invocations of one instance. It has room for 4,096; those beyond overlap them, so the design is refused by F11 then.
single() {
    awk -v count="$1" '
        BEGIN {
            print "comp Single<G: 4096>(@interface[G] go: 1, @[G, G+4096] a: 8) -> () {\n  X := new Not[8];"
            for (i = 0; i < count; i++) print "  x" i " := X<G+" (4095 - i % 4096) ">(a);"
            print "}"
        }'
}

# $1 components, each of an instance of the one before.
chain() {
    awk -v count="$1" '
        BEGIN {
            print "comp c0<G: 1>(@[G, G+1] a: 8) -> (@[G, G+1] o: 8) { o = a; }"
            for (i = 1; i < count; i++) print "comp c" i "<G: 1>(@[G, G+1] a: 8) -> (@[G, G+1] o: 8) { x := new c" i - 1 "<G>(a); o = x.o; }"
        }'
}

# A component of $1 instances of one of the weight 99: with their statements, $1 times 100 and 1.
heavy() {
    awk -v count="$1" '
        BEGIN {
            print "comp Part<G: 98>() -> () { X := new Not[1]; x := X<G+94>(1\047d0); }"
            print "comp Heavy<G: 98>() -> () {"
            for (i = 0; i < count; i++) print "  x" i " := new Part;"
            print "}"
        }'
}

# Prints the times of `check` of the shape $1 at half of the size $2 and at all of it, and what is said.
check() {
    "$1" $(($2 / 2)) >"$work/half.fil" || exit
    "$1" "$2" >"$work/whole.fil" || exit
    half=$(best check "$work/half.fil") || exit
    whole=$(best check "$work/whole.fil") || exit
    bytes=$(wc -c <"$work/whole.fil")
    echo "check $1 $2: half $half ms, whole $whole ms, $bytes bytes: $("$program" check "$work/whole.fil" 2>&1)"
    awk "BEGIN { printf \"ratio: %.2f\\n\", $whole / $half }"
}

check components 2600
check statements 20000
check shared 20000
check single 5000
check chain 10000
check heavy 9999
