#!/usr/bin/env python3
"""Each allocation refused, and each call on files and streams failing or short, in turn.

usage: calls.py PROGRAM FOLDER LIBRARY      LIBRARY is wrong.c, built

A run in which an allocation is refused has to end in want of memory, with its line, or in the worked answer; one in which a
read fails in a read fault that names the file; one in which a write fails in a write fault. On standard output there has to be
a beginning of the worked report. Where a call moves but one byte, the answer has to be the worked one.

The kit's `rt try --fail-alloc 1..` refuses the same allocations, in an unproved build that it makes anew for each run, but
judges the answer by faults, and by the worked report under the worked status, alone.

Prints for each run how many calls of each kind went wrong in turn; the status is 0 where each came to such an answer."""
import functools, itertools, os, pathlib, sys

from asking import ask, lanes
from worked import CLASH, DOT, DOT_STIMULUS, FOUR_LINES, TOP

FILES = {"four.net": FOUR_LINES, "products.futil": DOT, "products.json": DOT_STIMULUS, "clash.net": CLASH}
EXAMPLES = ("counter.net", "pair.fil", "pair.json", "lookup.net", "lookup.json", "total.futil", "total.json")
FILES |= {name: (TOP / "examples" / name).read_text() for name in EXAMPLES}
FILES |= {"loop.net": "net loop\nout q 1\nwire a 1\nset a = a\nset q = a\nend\n", "bad.json": '{"version": 1}\n'}

# The runs in which allocations are refused, and those in which calls on files and streams go wrong.
REFUSED = ["rows counter.net 5", "sim pair.fil pair.json", "sim products.futil products.json", "verilog four.net"]
FAILING = REFUSED + ["check counter.net", "rows counter.net 20000", "rows clash.net 5", "check loop.net", "sim lookup.net bad.json"]
FAILING += ["trace lookup.net lookup.json", "flow pair.fil pair.json", "timeline pair.fil pair.json", "net total.futil"]
FAILING += ["sched total.futil total.json", "lower pair.fil", "rows counter.net", "rows counter.net 1000001"]


def after_alloc(told, said, files):
    return said == told or said.status == 5 and said.err == b"out of memory\n" and told.out.startswith(said.out)


def after_read(told, said, files):
    return said.status == 3 and not said.out and said.err in [b"read fault: %s\n" % file.encode() for file in files]


def after_write(told, said, files):
    return said.status == 4 and told.out.startswith(said.out) and told.err.startswith(said.err)


def after_short(told, said, files):
    return said == told


# What may come of a run in which a call of this kind goes wrong.
KINDS = {"alloc": after_alloc, "open": after_read, "seek": after_read, "read": after_read, "write": after_write}
KINDS |= {"short read": after_short, "short write": after_short}


def ask_wrongly(program, folder, library, words, wrong):
    """What comes of a run in which this call goes wrong, and whether there was such a call."""
    mark, told = os.pipe()
    how = {"LD_PRELOAD": str(library), "FILC_WRONG": wrong, "FILC_MARK": str(told)}
    try:
        said = ask(program, words, folder, env={**os.environ, **how}, pass_fds=(told,))
        os.set_blocking(mark, False)
        try:
            return said, os.read(mark, 1) == b"!"
        except BlockingIOError:
            return said, False
    finally:
        os.close(mark)
        os.close(told)


def sweep(pool, asked, words, kind, told):
    """How many calls of the kind there are, and the faults, as each goes wrong in turn."""
    files, faults = words[1:2] + [word for word in words[2:] if word.endswith(".json")], []
    for first in itertools.count(1, 64):
        numbers = range(first, first + 64)
        for number, (said, was) in zip(numbers, pool.map(lambda n: asked(words, f"{kind} {n}"), numbers)):
            if not was:
                # All of the program's calls were made, and none went wrong.
                faults += [f"without a {kind} {number} it says {said}"] if said != told else []
                return number - 1, faults
            if not KINDS[kind](told, said, files):
                faults.append(f"{' '.join(words)}, {kind} {number}: status {said.status}, out {said.out[-80:]!r}, err {said.err!r}")


def main():
    program, folder, library = (pathlib.Path(word).resolve() for word in sys.argv[1:4])
    for name, text in FILES.items():
        (folder / name).write_text(text)
    asked = functools.partial(ask_wrongly, program, folder, library)
    faults = []
    with lanes() as pool:
        for run in FAILING:
            words, counts = run.split(), []
            told = ask(program, words, folder)
            for kind in KINDS:
                if kind != "alloc" or run in REFUSED:
                    count, wrong = sweep(pool, asked, words, kind, told)
                    counts.append(f"{kind} {count}")
                    faults += wrong
            print(f"{run}: status {told.status}; went wrong in turn: {', '.join(counts)}", flush=True)
    print(*[f"fault: {it}" for it in faults], f"faults: {len(faults)}", sep="\n")
    return 1 if faults else 0


if __name__ == "__main__":
    sys.exit(main())
