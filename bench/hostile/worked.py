"""Worked texts: the examples, the texts that docs/ shows, and some that are there for hostile use alone."""
import pathlib, re

TOP = pathlib.Path(__file__).resolve().parent.parent.parent

# How the first line of a text in docs/ begins, for each ending.
BEGINS = {".net": "net ", ".fil": "comp ", ".futil": "component "}

# The sum of the products of two memories.
DOT = """component main() -> (total: 16) {
  cells {
    @external one = std_mem_d1(16, 4, 3);
    @external two = std_mem_d1(16, 4, 3);
    at = std_reg(3); next = std_add(3); less = std_lt(3);
    sum = std_reg(16); plus = std_add(16); product = std_mult_pipe(16);
  }
  wires {
    comb group compare { less.left = at.out; less.right = 3'd4; }
    group multiply {
      one.addr0 = at.out; two.addr0 = at.out;
      product.left = one.read_data; product.right = two.read_data;
      product.go = !product.done ? 1'd1;
      multiply[done] = product.done;
    }
    group add { plus.left = sum.out; plus.right = product.out; sum.in = plus.out; sum.write_en = 1'd1; add[done] = sum.done; }
    group step { next.left = at.out; next.right = 3'd1; at.in = next.out; at.write_en = 1'd1; step[done] = at.done; }
    total = sum.out;
  }
  control { while less.out with compare { multiply; par { add; step; } } }
}
"""
DOT_STIMULUS = """{"version": 1, "cycles": 40, "inputs": [{"from": 0, "set": {"go": 1}}, {"from": 1, "set": {"go": 0}}],
 "memories": {"one": [1, 2, 3, 4], "two": [5, 6, 7, 8]}}
"""
FOUR_LINES = "net w\nin a 4\nout b 4\nset b = a\nend\n"
CLASH = "net clash\nout q 8\ncell r std_reg 8\ncell a std_add 8\nset a.left = r.out\nset a.right = 8'd1\nset r.in = a.out\n" \
    "set r.write_en = 1'd1\nset q = r.out\nset q = (r.out == 8'd3) ? 8'd9\nend\n"
# What a netlist, a Filament design and a Calyx design run under, where they have no stimulus of their own.
STIMULI = {
    ".net": '{"version": 1, "cycles": 12, "inputs": []}\n',
    ".fil": '{"version": 1, "transactions": [{"start": 0, "inputs": {"a": 1}}, {"start": 9, "inputs": {"a": 2}}]}\n',
    ".futil": '{"version": 1, "cycles": 12, "inputs": [{"from": 0, "set": {"go": 1}}]}\n',
}


def shown(page):
    """The texts that a page of docs/ shows: runs of lines that are set in by four blanks, up to the line that the program
    prints of them; and those in the tables of rules."""
    for block in re.findall(r"(?:^    .*\n|^\n)+", page, re.M):
        lines = [line[4:] for line in block.strip("\n").split("\n")]
        ends = [n for n, line in enumerate(lines) if re.match(r"(refused|conflict|limit) ", line)]
        yield "\n".join(lines[: ends[0]] if ends else lines).strip("\n") + "\n"
    yield from re.findall(r"`(comp(?:onent)? [^`]*\})`", page)


def texts():
    """All texts by their names: of examples/, of docs/, and those above."""
    found = {file.name: file.read_text() for file in sorted(TOP.glob("examples/*.*")) if file.suffix != ".md"}
    for page in sorted(TOP.glob("docs/*.md")):
        for number, text in enumerate(shown(page.read_text())):
            for ending, begin in BEGINS.items():
                if text.startswith(begin) and "NAME" not in text:
                    found[f"{page.stem}{number}{ending}"] = text
    return found | {"products.futil": DOT, "products.json": DOT_STIMULUS, "four.net": FOUR_LINES}
