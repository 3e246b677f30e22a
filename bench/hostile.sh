#!/bin/sh
# The built program in hostile hands, in four parts: files and streams that fail; each allocation refused and each read and
# write failing or short, in turn; worked texts with one place changed; texts at each limit and one over it. What each part
# asks is told at its head, here and in hostile/. It prints what it counted and what it skipped, and ends with status 0
# only where every run came to an answer that may be given there.
#
# usage: hostile.sh [PROGRAM [COUNT]]
#
# PROGRAM is the program to try; without it that of this repository, which is built first. COUNT is how many texts are
# changed: 20,000. LANES=N has N runs go on side by side: 2.
top=$(cd "$(dirname "$0")/.." && pwd) || exit
[ $# -gt 0 ] || "$top/filc" check "$top/examples/counter.net" >/dev/null || exit
. "$top/bench/best.sh"
[ $# -eq 0 ] || program=$(readlink -f "$1")
"$program" check "$top/examples/counter.net" >/dev/null || exit
count=${2:-20000}
failed=0
# The folder is kept where a run went wrong.
trap '[ "$failed" -gt 0 ] || rm -rf "$work"' EXIT
ulimit -s 8192
ulimit -c 0

# ---- files and streams that fail

held=0
run() {
    "$program" "$@" >out 2>err
    status=$?
}

# Compares what came of a run with the status $2 and the line $3; at those that are no report nothing may be printed.
told() {
    line=$(cat err)
    case $2 in 0 | 4 | 7) size=0 ;; *) size=$(wc -c <out) ;; esac
    if [ "$status" = "$2" ] && [ "$line" = "$3" ] && [ "$size" = 0 ]; then
        held=$((held + 1))
    else
        failed=$((failed + 1))
        echo "fault: $1: status $status and '$line' in place of $2 and '$3'"
    fi
}

unreadable() {
    run check gone.net
    told 'a file that is not there' 3 'read fault: gone.net'
    run check gone/there.fil
    told 'a folder that is not there' 3 'read fault: gone/there.fil'
    mkdir folder.net folder.json
    run check folder.net
    told 'a folder as a netlist' 3 'read fault: folder.net'
    run sim lookup.net folder.json
    told 'a folder as a stimulus' 3 'read fault: folder.json'
    run sim lookup.net gone.json
    told 'a stimulus that is not there' 3 'read fault: gone.json'
    run sim loop.net gone.json
    told 'the same of a netlist that is refused' 1 'refused N6 loop item 0 loop a'
    ln -s round.futil round.futil
    run check round.futil
    told 'a link to itself' 3 'read fault: round.futil'
    name=$(printf '%0300d' 0).net
    run check "$name"
    told 'a name that is too long' 3 "read fault: $name"
    mkfifo pipe.net
    : >pipe.net &
    run check pipe.net
    told 'a pipe that is closed early' 3 'read fault: pipe.net'
    cat counter.net >pipe.net 2>/dev/null &
    run check pipe.net
    told 'a pipe that has a netlist' 3 'read fault: pipe.net'
    wait
    cp counter.net closed.net
    chmod 0 closed.net
    if [ -r closed.net ]; then
        echo 'skipped: a file that may not be read, since this user may read all'
    else
        run check closed.net
        told 'a file that may not be read' 3 'read fault: closed.net'
    fi
}

endless() {
    for ending in net fil futil; do ln -s /dev/zero "zero.$ending" && ln -s /dev/null "null.$ending"; done
    ln -s /dev/zero zero.json
    run check zero.net
    told 'an endless netlist' 8 'limit source 16777217 over 16777216'
    for ending in fil futil; do
        run check "zero.$ending"
        told "an endless .$ending" 8 'limit source 1048577 over 1048576'
    done
    run sim lookup.net zero.json
    told 'an endless stimulus' 8 'limit stimulus 16777217 over 16777216'
    for ending in net fil futil; do
        run check "null.$ending"
        told "nothing as a .$ending" 1 'refused grammar at byte 0'
    done
    run sim lookup.net /dev/null
    told 'nothing as a stimulus' 6 'stimulus S1'
    run sim lookup.net lookup.net
    told 'a netlist as a stimulus' 6 'stimulus S1'
}

words() {
    usage='usage: filc COMMAND FILE [STIMULUS or NUMBER]'
    run
    told 'no words' 2 "$usage"
    run ''
    told 'an empty word' 2 "$usage"
    run net counter.net
    told 'a command that is not for netlists' 2 "$usage"
    run rows counter.net 18446744073709551616
    told 'a count of 65 bits' 2 "$usage"
    run rows counter.net 18446744073709551615
    told 'a count of 64 bits' 8 'limit cycles 18446744073709551615 over 1000000'
    run check -counter.net
    told 'a dash' 2 "$usage"
    run check counter.net counter.net
    told 'a word too many' 2 "$usage"
    run check "$(printf 'counter\377.net')"
    told 'a word that is no text' 9 ''
}

unwritable() {
    "$program" rows counter.net 5 >/dev/full 2>err
    status=$?
    told 'a report to a full device' 4 ''
    "$program" rows counter.net 100000 >/dev/full 2>err
    status=$?
    told 'a long report to a full device' 4 ''
    "$program" rows clash.net 5 >/dev/full 2>err
    status=$?
    told 'rows before a Conflict to a full device' 4 ''
    "$program" rows counter.net 5 2>err >&-
    status=$?
    told 'a report to a closed stream' 4 ''
    "$program" check loop.net >out 2>/dev/full
    status=$?
    : >err
    told 'a line to a full device' 4 ''
    "$program" check loop.net >out 2>&-
    status=$?
    told 'a line to a closed stream' 4 ''
    "$program" check gone.net >out 2>/dev/full
    status=$?
    told 'the line of a read fault to a full device' 4 ''
    "$program" check loop.net 2>err >/dev/full
    status=$?
    : >out
    told 'a line where the report would go to a full device' 1 'refused N6 loop item 0 loop a'
    "$program" check counter.net >out 2>/dev/full
    status=$?
    : >err
    told 'a report where a line would go to a full device' 0 ''
    "$program" rows counter.net 0 2>err >/dev/full
    status=$?
    told 'no rows to a full device' 0 ''
    "$program" check counter.net >out 2>err <&-
    status=$?
    told 'no standard input' 0 ''
    "$program" rows counter.net 3 <&- >&- 2>&-
    status=$?
    told 'no stream at all' 4 ''
}

cut_off() {
    { "$program" rows counter.net 1000000 2>err; echo $? >status; } | head -c 100 >/dev/null
    status=$(cat status)
    told 'a reader that goes away' 4 ''
    { sleep 1; "$program" rows counter.net 5 2>err; echo $? >status; } | :
    status=$(cat status)
    told 'a reader that has gone away' 4 ''
    (ulimit -f 1 && trap '' XFSZ && exec "$program" rows counter.net 100000 >out 2>err)
    status=$?
    told 'a file that may not grow' 4 ''
    "$program" rows counter.net 100000 >whole
    if ! cmp -s -n "$(wc -c <out)" out whole; then
        failed=$((failed + 1))
        echo 'fault: a file that may not grow: what is in it is no beginning of the report'
    fi
}

# A program that may have so much memory that it starts has an answer, whatever it is to read: an answer, or want of memory.
little_memory() {
    awk 'BEGIN { print "net wide\nin a 1"; for (i = 0; i < 60000; i++) print "wire w" i " 1"; print "end" }' >wide.net
    least=4000
    # With less it can't be loaded, and the shell tells so.
    {
        until (ulimit -v $least && exec "$program" check counter.net >/dev/null 2>&1) || [ $least -gt 1000000 ]; do least=$((least + 1000)); done
    } 2>/dev/null
    wanted=0
    for more in 0 500 1000 2000 3000 4000 6000 8000 10000 15000 20000 30000 50000; do
        (ulimit -v $((least + more)) && exec "$program" check wide.net >out 2>err)
        status=$?
        if [ "$status" = 0 ]; then told "$more KB more than it needs" 0 ''; else
            wanted=$((wanted + 1))
            told "$more KB more than it needs" 5 'out of memory'
        fi
    done
    echo "with little memory: $wanted of 13 runs ended in want of it"
}

mkdir "$work/files" && cd "$work/files" || exit
cp "$top/examples/counter.net" "$top/examples/lookup.net" "$top/examples/lookup.json" . || exit
printf 'net loop\nout q 1\nwire a 1\nset a = a\nset q = a\nend\n' >loop.net
printf "net clash\nout q 8\ncell r std_reg 1\nset q = 8'd1\nset r.in = 1'd1\nset r.write_en = 1'd1\nset q = r.out ? 8'd2\nend\n" >clash.net
unreadable
endless
words
unwritable
cut_off
little_memory
echo "files and streams: $held held, $failed failed"

# ---- the other parts

# Runs the part $1 of hostile/ in a folder of its own, with the words that follow.
part() {
    part=$1
    shift
    mkdir "$work/$part"
    python3 "$top/bench/hostile/$part.py" "$program" "$work/$part" "$@" || failed=$((failed + 1))
}

# Builds what has calls go wrong, by a C compiler of the system or by the kit's.
wrong() {
    source=$top/bench/hostile/wrong.c
    if command -v cc >/dev/null; then
        cc -O1 -shared -fPIC -o "$work/wrong.so" "$source"
        return
    fi
    kit=$(dirname "$(dirname "$(readlink -f "$(command -v rt)")")")/toolchain/bin
    "$kit/clang" --target=x86_64-unknown-linux-gnu -O1 -fPIC -c -o "$work/wrong.o" "$source" &&
        "$kit/ld.lld" -shared -o "$work/wrong.so" "$work/wrong.o"
}

# Names whose hashes meet, as far as there is a C compiler.
meeting() {
    command -v cc >/dev/null && cc -O2 -o "$work/meeting" "$top/bench/hostile/meeting.c" && "$work/meeting" 50000 13 >"$work/names"
}

if wrong; then part calls "$work/wrong.so"; else echo 'skipped: calls that go wrong, since no C compiler is here'; fi
part texts "$count"
if meeting; then part sizes "$work/names"; else part sizes; fi
if [ "$failed" -gt 0 ]; then
    echo "failed; what was tried is in $work"
    exit 1
fi
echo 'all held'
