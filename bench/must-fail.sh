#!/bin/sh
# Wrong bodies of the crates whose proofs take long, which the prover has to refuse: beside the gate, since the first edit of a
# crate takes as long as its proof. The edits stand in must-fail/CRATE/ here, in the form that `rt must-fail` reads; those of
# the other crates stand in their own folders, and `rt ci` tries them.
#
# usage: must-fail.sh [CRATE ..]      all crates that have edits here, if none is named
#
# Works on a copy of the last commit, proves what lies below each crate, and ends with status 0 where all edits were refused.
top=$(cd "$(dirname "$0")/.." && pwd) || exit
[ $# -gt 0 ] || set -- $(ls "$top/bench/must-fail")
work=$(mktemp -d) || exit
trap 'rm -rf "$work"' EXIT
git clone -q "$top" "$work/filc" && cd "$work/filc" || exit
failed=0
for crate; do
    mkdir -p "crates/$crate/must-fail" && cp "bench/must-fail/$crate"/*.edit "crates/$crate/must-fail" || exit
    rt must-fail "$crate" || failed=1
done
exit $failed
