#!/bin/sh
# The times and the memory of `lower`, `net` and `verilog` over large Calyx designs with control, which this script makes, the
# best of five: at full size and at half of it, with their ratio. Each is to take under 10 s and 2 GB, and twice the size at
# most 2.3 times as long. Then what control costs in the netlists of the examples.
top=$(cd "$(dirname "$0")/.." && pwd) || exit
"$top/filc" net "$top/examples/double.futil" >/dev/null || exit
. "$top/bench/best.sh"
. "$top/bench/shapes.sh"

# Prints the times of the command $1 over the shape $2 at half of the size $3 and at all of it.
measure() {
    "$2" $(($3 / 2)) >"$work/half.futil" || exit
    "$2" "$3" >"$work/whole.futil" || exit
    half=$(best "$1" "$work/half.futil") || exit
    whole=$(best "$1" "$work/whole.futil") || exit
    bytes=$("$program" "$1" "$work/whole.futil" | wc -c)
    echo "$1 $2 $3: half $half ms, whole $whole ms, $(memory "$1" "$work/whole.futil") MB, $bytes bytes of text"
    awk "BEGIN { printf \"ratio: %.2f\\n\", $whole / $half }"
}

# Prints how many cells and assignments the netlist of the design $1 has for each of its control statements, besides those that
# the design tells itself (the bindings of an invoke are such assignments). No component of it has more than one instance.
cost() {
    "$program" net "$1" >"$work/net" || exit
    awk -v name="$(basename "$1")" '
        FNR == NR { cells += /^(cell|ext) /; sets += /^set /; next }
        /^}/ { section = "" }
        /^  (cells|wires|control) \{/ { section = $1; next }
        section == "cells" && / = (std|comb|fil)_/ { cells-- }
        section == "wires" && / = / && !/\[done\]/ { sets-- }
        section == "control" && (/;$/ || /^ *(seq|par|if|while) /) { statements++ }
        section == "control" && /^ *invoke / { sets -= gsub(/ = /, "") }
        END {
            printf "%s: %d statements, %d more cells and %d more assignments", name, statements, cells, sets
            printf ", for each statement %.1f and %.1f\n", cells / statements, sets / statements
        }' "$work/net" "$1"
}

for command in lower net verilog; do
    measure "$command" enables 20000
    measure "$command" together 2000
    measure "$command" loops 1600
    measure "$command" levels 56
done
for design in "$top"/examples/*.futil; do
    cost "$design"
done
