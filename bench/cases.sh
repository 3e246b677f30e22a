#!/bin/sh
# Whether the copies of the examples in crates/filc_cases/data are those of examples/; with the word `copy` it makes them anew. Then what
# the cases print, beside the transcript that is wanted.
top=$(cd "$(dirname "$0")/.." && pwd) || exit
crate=$top/crates/filc_cases
for file in "$top"/examples/*; do
    name=${file##*/}
    [ "$name" = README.md ] && continue
    if [ "$1" = copy ]; then cp "$file" "$crate/data" || exit; fi
    cmp "$file" "$crate/data/$name" || exit
done
echo "the copies of the examples are alike"

(cd "$crate" && rt run >/dev/null) || exit
work=$(mktemp -d) || exit
trap 'rm -rf "$work"' EXIT
cp "$crate"/data/* "$work" && cd "$work" || exit
xargs "$crate/out/filc_cases" <"$crate/args" >transcript || exit
diff "$crate/stdout" transcript && echo "the transcript is as wanted"
