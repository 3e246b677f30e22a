#!/usr/bin/env python3
"""Modules of the printed part of Verilog, made at random, whose rows by the meaning are compared with those of real tools.

    verilog_modules.py COUNT [SEED] [TOOL ..]    tools: icarus, yosys, verilator, lint; all that are installed if none is named

Each module is that of a netlist: its trees are made as in ver_lang/specs/CellItems.antt and NetModule.antt, and its text as in
Layout.antt. The text is read back by verilog_meaning.py, must spell the same trees, and is run for some cycles on random inputs:
all inputs and outputs must show in Icarus, in Yosys' `sim` and in a Verilator build what they show by the meaning; `lint` says
that Verilator and Yosys take the text as it is, without a warning. COUNT modules go to a tool in groups, one file a group.
"""
import os
import random
import shutil
import subprocess
import sys
import tempfile

sys.path.insert(0, os.path.dirname(os.path.abspath(__file__)))
import verilog_meaning as meaning
from verilog_meaning import (
    Always, Assign, Binary, Block, Bracketed, Choice, Constant, Counter, Fill, Inverse, Joined, Keeps, Literal, Memory, Module, Name,
    Negation, Part, Register, Signal, Stores, When, WhenElse, Wire, Word,
)

WIDTHS = [1, 2, 3, 8, 31, 32, 33, 63, 64, 65, 127, 128]
# no words of C++ are among them, of which Verilator tells
KEYWORDS = ["always", "reg", "endmodule", "begin", "x", "a.b", "logic", "wire", "$signed", "initial"]
CYCLES = 12
GROUP = 25


# ------------------------------------------------------------------------------------------------- cells, as in CellItems
def index_width(count):
    return max(1, (count - 1).bit_length())


def padded(n, e):
    return e if n == 0 else Joined(Literal(n, 0), e)


def fitted(name, idx, bits):
    return Part(name, bits - 1, 0) if bits < idx else padded(bits - idx, Name(name))


def below(name, idx, size):
    return Binary("<", Name(name), Literal(idx, size)) if size < 2**idx else None


def memory(cell, w, count, within, index):
    words, write_en = f"{cell}.$0", Name(f"{cell}.write_en")
    counter = f"{cell}.$2".replace(".", "/")
    word = Word(words, index)
    read = word if within is None else Choice(Bracketed(within), word, Literal(w, 0))
    test = write_en if within is None else Binary("&&", write_en, Bracketed(within))
    return [
        Memory(Signal(words, w), count),
        Register(Signal(f"{cell}.$1", 1), Constant(1, 0)),
        Counter(counter),
        Fill(counter, count, words, Constant(w, 0)),
        Assign(f"{cell}.read_data", read),
        Assign(f"{cell}.done", Name(f"{cell}.$1")),
        Always(Block([Keeps(f"{cell}.$1", write_en), When(test, Stores(words, index, Name(f"{cell}.write_data")))])),
    ]


def memory_d2(cell, w, size0, size1, idx0, idx1):
    bits = index_width(size0 * size1)
    first, second = below(f"{cell}.addr0", idx0, size0), below(f"{cell}.addr1", idx1, size1)
    within = second if first is None else first if second is None else Binary("&&", first, second)
    column = fitted(f"{cell}.addr1", idx1, bits)
    row = Binary("*", fitted(f"{cell}.addr0", idx0, bits), Literal(bits, size1))
    return memory(cell, w, size0 * size1, within, column if size0 == 1 else Binary("+", row, column))


def clocked(cell, w):
    """The items of the primitives that keep values but no words."""
    pin = lambda port: Name(f"{cell}.{port}")
    keep = lambda port, e: Keeps(f"{cell}.{port}", e)
    reg = lambda port, width: Register(Signal(f"{cell}.{port}", width), Constant(width, 0))
    phase = lambda n: Binary("==", pin("$0"), Literal(2, n))
    to = lambda n: keep("$0", Literal(2, n))
    product = Binary("*", pin("left"), pin("right"))
    begins = Block([When(pin("go"), Block([keep("$1", product), to(1)]))])
    return {
        "std_reg": lambda: [
            reg("$0", w), reg("$1", 1), Assign(f"{cell}.out", pin("$0")), Assign(f"{cell}.done", pin("$1")),
            Always(Block([keep("$1", pin("write_en")), When(pin("write_en"), keep("$0", pin("in")))])),
        ],
        "fil_delay": lambda: [reg("$0", w), Assign(f"{cell}.out", pin("$0")), Always(keep("$0", pin("in")))],
        "fil_fast_mult": lambda: [
            reg("$0", w), reg("$1", w), Assign(f"{cell}.out", pin("$1")),
            Always(Block([keep("$1", pin("$0")), keep("$0", product)])),
        ],
        "fil_seq_mult": lambda: [
            reg("$0", 2), reg("$1", w), Assign(f"{cell}.out", Choice(Bracketed(phase(2)), pin("$1"), Literal(w, 0))),
            Always(Block([WhenElse(phase(0), begins, WhenElse(phase(1), to(2), to(0)))])),
        ],
        "std_mult_pipe": lambda: [
            reg("$0", 2), reg("$1", w), reg("$2", w), Assign(f"{cell}.out", pin("$2")),
            Assign(f"{cell}.done", Bracketed(phase(3))),
            Always(Block([
                WhenElse(Binary("||", phase(3), Negation(pin("go"))), to(0), keep("$0", Binary("+", pin("$0"), Literal(2, 1)))),
                When(Binary("&&", phase(0), pin("go")), keep("$1", product)),
                When(Binary("&&", phase(2), pin("go")), keep("$2", pin("$1"))),
            ])),
        ],
    }


OPERATIONS = {
    "std_add": "+", "std_sub": "-", "std_and": "&", "std_or": "|", "std_xor": "^", "std_eq": "==", "std_neq": "!=", "std_lt": "<",
    "std_gt": ">", "std_le": "<=", "std_ge": ">=", "std_lsh": "<<", "std_rsh": ">>",
}
PRIMITIVES = [
    *OPERATIONS, "std_const", "std_wire", "std_not", "std_slice", "std_pad", "fil_mux", "fil_slice", "fil_concat", "std_reg",
    "fil_delay", "fil_fast_mult", "fil_seq_mult", "std_mult_pipe", "std_mem_d1", "std_mem_d2",
]


def cell_of(cell, prim, some):
    """A cell of the primitive with parameters of a random choice: its inputs, its outputs, its items, and the inputs that an
    output follows within a cycle."""
    w = some.choice(WIDTHS)
    sig = lambda port, width: Signal(f"{cell}.{port}", width)
    simple = lambda ins, width, e: (ins, [sig("out", width)], [Assign(f"{cell}.out", e)], [s.name for s in ins])
    pin = lambda port: Name(f"{cell}.{port}")
    two = [sig("left", w), sig("right", w)]
    if prim in OPERATIONS:
        op = OPERATIONS[prim]
        return simple(two, 1 if op in meaning.COMPARISONS else w, Binary(op, pin("left"), pin("right")))
    if prim == "std_const":
        return simple([], w, Literal(w, some.getrandbits(w)))
    if prim == "std_wire":
        return simple([sig("in", w)], w, pin("in"))
    if prim == "std_not":
        return simple([sig("in", w)], w, Inverse(pin("in")))
    if prim in ("std_slice", "std_pad"):
        narrow = some.randint(1, w)
        if prim == "std_slice":
            return simple([sig("in", w)], narrow, Part(f"{cell}.in", narrow - 1, 0))
        return simple([sig("in", narrow)], w, padded(w - narrow, pin("in")))
    if prim == "fil_slice":
        low = some.randint(0, w - 1)
        high = some.randint(low, w - 1)
        return simple([sig("in", w)], high + 1 - low, Part(f"{cell}.in", high, low))
    if prim == "fil_mux":
        return simple([sig("sel", 1), sig("tru", w), sig("fal", w)], w, Choice(pin("sel"), pin("tru"), pin("fal")))
    if prim == "fil_concat":
        a = some.randint(1, 64)
        return simple([sig("high", a), sig("low", 64)], a + 64, Joined(pin("high"), pin("low")))
    if prim == "std_mem_d1":
        size, idx = some.choice([1, 2, 3, 4, 5, 8]), some.choice([1, 2, 3, 4, 8, 40, 128])
        items = memory(cell, w, size, below(f"{cell}.addr0", idx, size), fitted(f"{cell}.addr0", idx, index_width(size)))
        ins = [sig("addr0", idx), sig("write_data", w), sig("write_en", 1)]
        return ins, [sig("read_data", w), sig("done", 1)], items, [f"{cell}.addr0"]
    if prim == "std_mem_d2":
        sizes = some.choice([(1, 1), (1, 3), (3, 1), (2, 2), (3, 2), (4, 2)])
        idx = some.choice([1, 2, 3, 70]), some.choice([1, 2, 3, 70])
        ins = [sig("addr0", idx[0]), sig("addr1", idx[1]), sig("write_data", w), sig("write_en", 1)]
        through = [f"{cell}.addr0", f"{cell}.addr1"]
        return ins, [sig("read_data", w), sig("done", 1)], memory_d2(cell, w, *sizes, *idx), through
    outs = [sig("out", w)] + ([sig("done", 1)] if prim in ("std_reg", "std_mult_pipe") else [])
    ins = {"std_reg": [sig("in", w), sig("write_en", 1)], "fil_delay": [sig("in", w)], "fil_fast_mult": two}
    return ins.get(prim, [sig("go", 1), *two]), outs, clocked(cell, w)[prim](), []


# ------------------------------------------------------------------------------------------- netlists, as in NetModule
def source(width, readable, some):
    fits = [s.name for s in readable if s.width == width]
    if fits and some.random() < 0.8:
        return Name(some.choice(fits))
    return Literal(width, some.choice([0, 1, 2**width - 1, some.getrandbits(width)]) % 2**width)


def comparison(readable, some):
    width = some.choice([s.width for s in readable] or [1])
    left, right = source(width, readable, some), source(width, readable, some)
    mark = some.choice(["==", "!="])  # where an operand is constant the others may be known, of which Verilator tells
    if some.random() < 0.5:
        one = some.choice([s for s in readable if s.name.startswith("i")][:3])
        left, right = Name(one.name), Name(some.choice([s.name for s in readable if s.width == one.width and s.name.startswith("i")]))
        mark = some.choice(meaning.COMPARISONS)
    return Bracketed(Binary(mark, left, right))


def guard(depth, readable, some):
    kind = some.choice("srcnao") if depth > 0 else some.choice("sc")
    if kind == "c":
        return comparison(readable, some)
    if kind == "n":
        return Bracketed(Negation(guard(depth - 1, readable, some)))
    if kind in "ao":
        e = guard(depth - 1, readable, some)
        for _ in range(some.randint(1, 3)):
            e = Binary("&&" if kind == "a" else "||", e, guard(depth - 1, readable, some))
        return Bracketed(e)
    return source(1, readable, some)


def chain(width, readable, some):
    e = source(width, readable, some) if some.random() < 0.6 else Literal(width, 0)
    for _ in range(some.choice([0, 0, 1, 2, 3])):
        e = Choice(Bracketed(guard(2, readable, some)), source(width, readable, some), e)
    return e


def module_of(name, some):
    """The module of a random netlist: ports, cells, and assignments that read only what comes before them in a cycle."""
    names = some.sample(KEYWORDS, 6)
    plain = [n for n in names if "." not in n and not n.startswith("$")]
    ins = [Signal(n, some.choice(WIDTHS)) for n in plain[:2]] + [Signal(f"i{k}", some.choice(WIDTHS)) for k in range(3)]
    cells = [cell_of(f"{some.choice(KEYWORDS)}{k}".replace("$", "_"), some.choice(PRIMITIVES), some) for k in range(some.randint(3, 8))]
    wires = [Signal(f"w.{k}", some.choice(WIDTHS)) for k in range(2)]
    early = [s for _, outs, _, through in cells if not through for s in outs if True]
    readable = list(ins) + [s for s in early]
    drives = {}
    for signal in wires:
        drives[signal.name] = chain(signal.width, readable, some)
        readable.append(signal)
    for cell_ins, outs, _, through in cells:
        for signal in cell_ins:
            if signal.name in through:
                drives[signal.name] = chain(signal.width, readable, some)
        readable += [s for s in outs if s not in readable]
    for cell_ins, _, _, through in cells:
        for signal in cell_ins:
            if signal.name not in through:
                drives[signal.name] = chain(signal.width, readable, some)
    outs = [Signal(f"o{k}", s.width) for k, s in enumerate(some.sample(readable, min(6, len(readable))))]
    picked = [chain(s.width, readable, some) for s in outs]
    inner = wires + [s for cell_ins, cell_outs, _, _ in cells for s in cell_ins + cell_outs]
    items = [Wire(s) for s in inner] + [item for _, _, own, _ in cells for item in own]
    items += [Assign(s.name, e) for s, e in zip(outs, picked)] + [Assign(s.name, drives[s.name]) for s in inner if s.name in drives]
    return Module(name, "$clk", ins, outs, items)


# --------------------------------------------------------------------------------------- tokens and text, as in Layout
def expr_tokens(e):
    mark = lambda text: [("mark", text)]
    if isinstance(e, Name):
        return [("name", e.name)]
    if isinstance(e, Literal):
        return [("sized", (e.width, e.value))]
    if isinstance(e, Part):
        return [("name", e.name), *bounds(e.high, e.low)]
    if isinstance(e, Word):
        return [("name", e.memory), *mark("["), *expr_tokens(e.index), *mark("]")]
    if isinstance(e, Joined):
        return mark("{") + expr_tokens(e.high) + mark(",") + expr_tokens(e.low) + mark("}")
    if isinstance(e, Inverse):
        return mark("~") + expr_tokens(e.operand)
    if isinstance(e, Negation):
        return mark("!") + expr_tokens(e.operand)
    if isinstance(e, Binary):
        return expr_tokens(e.left) + mark(e.mark) + expr_tokens(e.right)
    if isinstance(e, Choice):
        return expr_tokens(e.condition) + mark("?") + expr_tokens(e.yes) + mark(":") + expr_tokens(e.no)
    return mark("(") + expr_tokens(e.inner) + mark(")")


def marks(text):
    return [("mark", m) for m in text.split()]


def bounds(high, low):
    return [("mark", "["), ("number", high), ("mark", ":"), ("number", low), ("mark", "]")]


def signal_tokens(s):
    return bounds(s.width - 1, 0) + [("name", s.name)]


def statement_tokens(s):
    if isinstance(s, Keeps):
        return [("name", s.register), ("mark", "<="), *expr_tokens(s.value), ("mark", ";")]
    if isinstance(s, Stores):
        place = marks("[") + expr_tokens(s.index) + marks("] <=")
        return [("name", s.memory)] + place + expr_tokens(s.value) + marks(";")
    if isinstance(s, Block):
        return [("key", "begin")] + [t for inner in s.statements for t in statement_tokens(inner)] + [("key", "end")]
    head = [("key", "if")] + marks("(") + expr_tokens(s.condition) + marks(")") + statement_tokens(s.body)
    return head if isinstance(s, When) else head + [("key", "else")] + statement_tokens(s.other)


def item_tokens(clock, item):
    sized = lambda c: [("sized", (c.width, c.value))]
    if isinstance(item, Wire):
        return [("key", "wire")] + signal_tokens(item.signal) + marks(";")
    if isinstance(item, Register):
        return [("key", "reg")] + signal_tokens(item.signal) + marks("=") + sized(item.constant) + marks(";")
    if isinstance(item, Memory):
        return [("key", "reg")] + signal_tokens(item.signal) + bounds(0, item.count - 1) + marks(";")
    if isinstance(item, Counter):
        return [("key", "integer"), ("name", item.name), ("mark", ";")]
    if isinstance(item, Fill):
        i, n = ("name", item.counter), lambda value: ("number", value)
        counting = [i, *marks("="), n(0), *marks(";"), i, *marks("<"), n(item.count), *marks(";"), i, *marks("="), i, *marks("+"), n(1)]
        word = [("name", item.memory), *marks("["), i, *marks("] ="), *sized(item.word), *marks(";")]
        return [("key", "initial"), ("key", "for"), *marks("("), *counting, *marks(")"), *word]
    if isinstance(item, Assign):
        return [("key", "assign"), ("name", item.target), *marks("="), *expr_tokens(item.value), *marks(";")]
    return [("key", "always"), *marks("@ ("), ("key", "posedge"), ("name", clock), *marks(")"), *statement_tokens(item.statement)]


def word_of(token):
    kind, value = token
    return {"name": lambda: f"\\{value} ", "sized": lambda: "%d'd%d" % value}.get(kind, lambda: str(value))()


def touches(token, after):
    is_mark = lambda t, some: t[0] == "mark" and t[1] in some.split()
    opens, shuts, parts = is_mark(token, "( [ { ~ ! @"), is_mark(after, ") ] }"), is_mark(after, ", ;")
    if token[0] == "name":
        return True
    if token[0] == "number":
        return shuts or parts or is_mark(after, ":")
    if after[0] == "number":
        return opens or is_mark(token, ":")
    closed = token[0] == "sized" or is_mark(token, ") ] }")
    return (opens and (is_mark(after, "( [ { ~ ! @") or after[0] != "mark")) or (closed and (shuts or parts))


def rendered(tokens):
    text = word_of(tokens[0])
    for token, after in zip(tokens, tokens[1:]):
        text += ("" if touches(token, after) else " ") + word_of(after)
    return text


def text_of(m):
    ports = ["  " + rendered([("key", "input"), ("key", "wire"), ("name", m.clock)])]
    for direction, signals in (("input", m.ins), ("output", m.outs)):
        ports += ["  " + rendered([("key", direction), ("key", "wire"), *signal_tokens(s)]) for s in signals]
    lines = [rendered([("key", "module"), ("name", m.name), ("mark", "(")]), ",\n".join(ports), ");"]
    lines += ["  " + rendered(item_tokens(m.clock, item)) for item in m.items] + ["endmodule", ""]
    return "\n".join(lines)


# ---------------------------------------------------------------------------------------------------------------- tools
def holder_of(k, m):
    """A module with plain port names round the module of this number."""
    ports = ["input clk"] + [f"input [{s.width - 1}:0] i{j}" for j, s in enumerate(m.ins)]
    ports += [f"output [{s.width - 1}:0] o{j}" for j, s in enumerate(m.outs)]
    links = ["\\$clk (clk)"] + [f"\\{s.name} (i{j})" for j, s in enumerate(m.ins)] + [f"\\{s.name} (o{j})" for j, s in enumerate(m.outs)]
    return f"module t{k} (" + ", ".join(ports) + f");\n  \\{m.name}  it (" + ", ".join("." + link for link in links) + ");\nendmodule\n"


def bench_of(made):
    """A module that drives all modules of a group, and prints a line for each of them in each cycle."""
    lines = ["module bench;", "  reg clk = 0;"]
    for k, (m, _, _) in enumerate(made):
        links = ["clk"] + [f"i{k}_{j}" for j in range(len(m.ins))] + [f"o{k}_{j}" for j in range(len(m.outs))]
        lines += [f"  reg [{s.width - 1}:0] i{k}_{j} = 0;" for j, s in enumerate(m.ins)]
        lines += [f"  wire [{s.width - 1}:0] o{k}_{j};" for j, s in enumerate(m.outs)]
        lines.append(f"  t{k} it{k} (" + ", ".join(links) + ");")
    lines.append("  initial begin")
    lines.append("    if ($test$plusargs(\"dump\")) begin $dumpfile(\"run.fst\"); $dumpvars(0, bench); end")
    for t in range(CYCLES):
        for k, (m, inputs, _) in enumerate(made):
            lines += [f"    i{k}_{j} = {s.width}'d{inputs[t][s.name]};" for j, s in enumerate(m.ins)]
        lines.append("    #1;")
        for k, (m, _, _) in enumerate(made):
            shown = " ".join(["%0d"] * len(m.outs))
            lines.append(f'    $display("{k} {t} {shown}"' + "".join(f", o{k}_{j}" for j in range(len(m.outs))) + ");")
        lines.append("    #1 clk = 1; #2 clk = 0;")
    return "\n".join(lines + ["    $finish;", "  end", "endmodule", ""])


def wanted(made):
    return [
        " ".join([str(k), str(t), *(str(rows[t][s.name]) for s in m.outs)])
        for t in range(CYCLES) for k, (m, _, rows) in enumerate(made)
    ]


def run(words, folder, seconds=600):
    done = subprocess.run(words, cwd=folder, stdout=subprocess.PIPE, stderr=subprocess.STDOUT, text=True, timeout=seconds)
    return done.returncode, done.stdout


def differs(told, made):
    """The first line that a tool shows otherwise; none where all are as they must be."""
    lines = [line for line in told.splitlines() if line[:1].isdigit()]
    for line, want in zip(lines, wanted(made)):
        if line.split() != want.split():
            return f"{line}, and not {want}"
    return None if len(lines) == len(wanted(made)) else f"{len(lines)} lines, and not {len(wanted(made))}: {told[:300]}"


def icarus(made, folder):
    status, told = run(["iverilog", "-g2005", "-Wall", "-s", "bench", "-o", "icarus", "bench.v", "all.v"], folder)
    told = "\n".join(line for line in told.splitlines() if "timescale" not in line)
    if status or told:
        return told[:300]
    return differs(run(["vvp", "icarus"], folder)[1], made)


def shifts_far(m, rows):
    """Whether a shift's amount is 2^31 or more in some cycle: Yosys 0.23 takes it for a number below 0."""
    amounts = [item.value.right.name for item in m.items if isinstance(item, Assign) and getattr(item.value, "mark", "") in meaning.SHIFTS]
    return any(row[name] >= 2**31 for row in rows for name in amounts)


def yosys(made, folder):
    run(["iverilog", "-g2005", "-s", "bench", "-o", "icarus", "bench.v", "all.v"], folder)
    run(["vvp", "icarus", "-fst", "+dump"], folder)
    for k, (m, _, rows) in enumerate(made):
        if shifts_far(m, rows):
            continue
        script = f"read_verilog {k}.v t{k}.v; hierarchy -check -top t{k}; proc; flatten; sim -clock clk -r run.fst -scope bench.it{k} -sim-cmp -q"
        status, told = run(["yosys", "-q", "-p", script], folder)
        if status or "ERROR" in told or "mismatch" in told.lower():
            return f"{m.name}: {told[:300]}"
    return None


def verilator(made, folder):
    words = ["verilator", "--binary", "--timing", "-Wno-fatal", "-O0", "--top-module", "bench", "bench.v", "all.v"]
    status, told = run(words, folder)
    return told[:300] if status else differs(run(["obj_dir/Vbench"], folder)[1], made)


def lint(made, folder):
    for k, (m, _, _) in enumerate(made):
        status, told = run(["verilator", "--lint-only", f"{k}.v"], folder)
        if status or told:
            return f"{m.name}: {told[:300]}"
        status, told = run(["yosys", "-q", "-p", f"read_verilog {k}.v; hierarchy -check; proc; opt_clean; check -assert"], folder)
        if status or told:
            return f"{m.name} in Yosys: {told[:300]}"
    return None


TOOLS = {"icarus": ("iverilog", icarus), "yosys": ("yosys", yosys), "verilator": ("verilator", verilator), "lint": ("verilator", lint)}


def made_by(seed):
    """A module, its inputs in each cycle, and its rows by the meaning."""
    some = random.Random(seed)
    m = module_of(f"m{seed}", some)
    if meaning.spelled(text_of(m)) != m:
        sys.exit(f"the text of module {seed} doesn't spell it")
    extremes = lambda w: some.choice([0, 1, 2**w - 1, some.getrandbits(w), some.randrange(min(2**w, 140))]) % 2**w
    inputs = [{s.name: extremes(s.width) for s in m.ins} for _ in range(CYCLES)]
    return m, inputs, list(meaning.run_of_module(m, inputs))


def main():
    words = sys.argv[1:]
    if not words or not words[0].isdigit():
        sys.exit(__doc__)
    count, seed = int(words[0]), int(words[1]) if len(words) > 1 and words[1].isdigit() else 1
    named = [word for word in words[1:] if not word.isdigit()] or [tool for tool, (program, _) in TOOLS.items() if shutil.which(program)]
    failed = 0
    for first in range(seed, seed + count, GROUP):
        made = [made_by(k) for k in range(first, min(first + GROUP, seed + count))]
        with tempfile.TemporaryDirectory() as folder:
            open(f"{folder}/bench.v", "w").write(bench_of(made))
            open(f"{folder}/all.v", "w").write("".join(text_of(m) + holder_of(k, m) for k, (m, _, _) in enumerate(made)))
            for k, (m, _, _) in enumerate(made):
                open(f"{folder}/{k}.v", "w").write(text_of(m))
                open(f"{folder}/t{k}.v", "w").write(holder_of(k, m))
            for tool in named:
                told = TOOLS[tool][1](made, folder)
                if told is not None:
                    failed += 1
                    print(f"modules from {first} on, {tool}: {told}")
    print(f"{count} modules, {', '.join(named)}: {failed} groups failed")
    sys.exit(failed != 0)


if __name__ == "__main__":
    main()
