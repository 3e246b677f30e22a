# Read by the scripts beside it, which say where `top` is and have built the program.
program=$top/crates/filc/out/filc
work=$(mktemp -d) || exit
trap 'rm -rf "$work"' EXIT

# milliseconds that the program takes for the words, the best of five; a refusal counts as an answer, a crash does not
best() {
    least=
    for turn in 1 2 3 4 5; do
        begin=$(date +%s%N)
        "$program" "$@" >/dev/null 2>&1
        [ $? -lt 9 ] || exit
        took=$((($(date +%s%N) - begin) / 1000000))
        if [ -z "$least" ] || [ "$took" -lt "$least" ]; then least=$took; fi
    done
    echo "$least"
}

# The most memory that the program takes for the words, in MB.
memory() {
    python3 - "$program" "$@" <<'PEAK'
import resource, subprocess, sys
subprocess.run(sys.argv[1:], stdout=subprocess.DEVNULL, stderr=subprocess.DEVNULL)
print(resource.getrusage(resource.RUSAGE_CHILDREN).ru_maxrss // 1000)
PEAK
}
