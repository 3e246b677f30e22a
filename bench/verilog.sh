#!/bin/sh
# The Verilog texts of all examples: whether the tools that are installed take them (Icarus Verilog, Yosys, Verilator), and
# whether their runs in Icarus Verilog show what `trace` does, port by port and row by row. What needs a missing tool is skipped.
top=$(cd "$(dirname "$0")/.." && pwd) || exit
"$top/filc" verilog "$top/examples/counter.net" >/dev/null || exit
. "$top/bench/best.sh"

has() { command -v "$1" >/dev/null; }

for tool in iverilog yosys verilator; do
    if has "$tool"; then echo "found: $tool"; else echo "skipped: $tool"; fi
done

failed=0
# Runs the words after the first two, which say whose step of what this is, and tells how it ended.
step() {
    name=$1 what=$2
    shift 2
    if "$@" >"$work/said" 2>&1; then
        echo "$name: $what"
    else
        failed=$((failed + 1))
        echo "$name: not $what"
        head -n 5 "$work/said"
    fi
}

# The stimulus of a design: that beside it, and 20 cycles with nothing set for a netlist that has none.
stimulus() {
    if [ -e "${1%.*}.json" ]; then cp "${1%.*}.json" "$2"; else
        case $1 in
            *.net) echo '{"version": 1, "cycles": 20, "inputs": []}' >"$2" ;;
            *) return 1 ;;
        esac
    fi
}

# A module that runs the one of a trace's netlist, with the opening words of its stimulus: in each row it sets the inputs that the
# trace shows, compares all ports, and then lets the clock rise. It prints each port that differs, and `same` where none does.
bench() {
    python3 - "$1" "$2" <<'BENCH'
import json, sys
text, _, rows = open(sys.argv[1]).read().partition("\n\n")
memories = json.load(open(sys.argv[2])).get("memories", {})
lines = [line.split(" ") for line in text.split("\n")]
ins = [(line[1], int(line[2])) for line in lines if line[0] == "in"]
print("module bench;\n  reg clk = 0;\n  integer wrong = 0;")
for place, (port, width) in enumerate(ins):
    print(f"  reg [{width - 1}:0] in{place} = 0;")
links = ["\\$clk (clk)"] + [f"\\{port} (in{place})" for place, (port, width) in enumerate(ins)]
print(f"  \\{lines[0][1]}  it(" + ", ".join("." + link for link in links) + ");\n  initial begin\n    #1;")
for memory, words in memories.items():
    for place, word in enumerate(words):
        print(f"    it.\\{memory}.$0 [{place}] = 128'd{word};")
for row in rows.splitlines():
    cycle, *values = row.split(" ")
    if cycle == "mem":
        break
    values = dict(value.split("=") for value in values)
    for place, (port, width) in enumerate(ins):
        print(f"    in{place} = 128'd{values[port]};")
    print("    #1;")
    for port, value in values.items():
        told = f'$display("row {cycle}: {port} is %0d, and not {value}", it.\\{port} );'
        print(f"    if (it.\\{port}  !== 128'd{value}) begin wrong = wrong + 1; {told} end")
    print("    clk = 1; #1 clk = 0;")
print('    if (wrong == 0) $display("same");\n    $finish;\n  end\nendmodule')
BENCH
}

# Whether the run of a design's text under its stimulus shows what `trace` does.
runs_alike() {
    "$program" trace "$1" "$work/stimulus" >"$work/trace" || return
    bench "$work/trace" "$work/stimulus" >"$work/bench.v" || return
    iverilog -s bench -o "$work/run" "$work/bench.v" "$work/text.v" || return
    timeout 60 vvp "$work/run" >"$work/rows" || return
    cat "$work/rows"
    grep -qx same "$work/rows"
}

# Takes the text of a design through each tool that is there.
take() {
    name=$(basename "$1")
    "$program" verilog "$1" >"$work/text.v" || exit
    has iverilog && step "$name" "taken by Icarus Verilog" iverilog -t null -Wall "$work/text.v"
    has yosys && step "$name" "taken by Yosys" yosys -q -p "read_verilog $work/text.v; hierarchy -check; proc; check -assert"
    has verilator && step "$name" "taken by Verilator" verilator --lint-only "$work/text.v"
    has iverilog && has vvp && stimulus "$1" "$work/stimulus" && step "$name" "the same rows as trace" runs_alike "$1"
}

for design in "$top"/examples/*.net "$top"/examples/*.fil "$top"/examples/*.futil; do
    [ -e "$design" ] && take "$design"
done
echo "$failed failed"
[ "$failed" -eq 0 ]
