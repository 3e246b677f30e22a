#!/bin/sh
# The times and the memory of `soak` for 50,000 and 100,000 transactions, the best of five each, and their ratio; and whether
# two runs give the same bytes.
top=$(cd "$(dirname "$0")/.." && pwd) || exit
"$top/filc" soak 1 >/dev/null || exit
. "$top/bench/best.sh"

half=$(best soak 50000)
whole=$(best soak 100000)
echo "soak 50000: $half ms, $(memory soak 50000) MB"
echo "soak 100000: $whole ms, $(memory soak 100000) MB"
awk "BEGIN { printf \"ratio: %.2f\\n\", $whole / $half }"

"$program" soak 100000 >"$work/first" || exit
"$program" soak 100000 >"$work/second" || exit
cmp "$work/first" "$work/second" || exit
echo "two runs give the same bytes:"
tail -n 4 "$work/first"
