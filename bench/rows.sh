#!/bin/sh
# The time of `rows` of the counter for N and 2 N cycles, N = 500,000, the best of five each, and their ratio.
top=$(cd "$(dirname "$0")/.." && pwd) || exit
"$top/filc" rows "$top/examples/counter.net" 0 || exit
. "$top/bench/best.sh"

half=$(best rows "$top/examples/counter.net" 500000)
whole=$(best rows "$top/examples/counter.net" 1000000)
echo "500000 cycles: $half ms"
echo "1000000 cycles: $whole ms"
awk "BEGIN { printf \"ratio: %.2f\\n\", $whole / $half }"
