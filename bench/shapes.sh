# Large Calyx designs with control, read by the scripts beside it.

# One `seq` of $1 enables, of ten groups in turn.
enables() {
    awk -v count="$1" '
        BEGIN {
            print "component main() -> () { cells { r = std_reg(8); } wires {"
            for (i = 0; i < 10; i++) print "group g" i " { r.in = 8\047d" i "; r.write_en = 1\047d1; g" i "[done] = r.done; }"
            print "} control { seq {"
            for (i = 0; i < count; i++) print "g" i % 10 ";"
            print "} } }"
        }'
}

# $1 groups in one `par`, each of which writes a register of its own.
together() {
    awk -v count="$1" '
        BEGIN {
            print "component main() -> () { cells {"
            for (i = 0; i < count; i++) print "r" i " = std_reg(16);"
            print "} wires {"
            for (i = 0; i < count; i++) print "group g" i " { r" i ".in = 16\047d" i "; r" i ".write_en = 1\047d1; g" i "[done] = r" i ".done; }"
            print "} control { par {"
            for (i = 0; i < count; i++) print "g" i ";"
            print "} } }"
        }'
}

# Loops in loops, 12 deep, with a choice in each, in each of $1 statements of a `par`; each of these has a register of its own.
loops() {
    awk -v count="$1" '
        BEGIN {
            print "component main(a: 1) -> () { cells {"
            for (i = 0; i < count; i++) print "r" i " = std_reg(1);"
            print "} wires {"
            for (i = 0; i < count; i++) print "group g" i " { r" i ".in = a; r" i ".write_en = 1\047d1; g" i "[done] = r" i ".done; }"
            print "} control { par {"
            for (i = 0; i < count; i++) {
                for (depth = 0; depth < 12; depth++) printf "while a { if r%d.out { g%d; } else { ", i, i
                printf "g%d; g%d; ", i, i
                for (depth = 0; depth < 12; depth++) printf "} } "
                print ""
            }
            print "} } }"
        }'
}

# 12 levels of components, each of which invokes two instances of the one before at once; the lowest has $1 groups, so the weight
# is some 16,400 for each.
levels() {
    awk -v count="$1" '
        BEGIN {
            print "component level0() -> () { cells { r = std_reg(8); } wires {"
            for (i = 0; i < count; i++) print "group g" i " { r.in = 8\047d" i % 256 "; r.write_en = 1\047d1; g" i "[done] = r.done; }"
            print "} control { seq {"
            for (i = 0; i < count; i++) print "g" i ";"
            print "} } }"
            for (i = 1; i <= 12; i++) {
                print "component level" i "() -> () { cells { x = level" i - 1 "(); y = level" i - 1 "(); } wires { }"
                print "control { par { invoke x()(); invoke y()(); } } }"
            }
        }'
}
