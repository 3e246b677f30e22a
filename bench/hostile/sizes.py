#!/usr/bin/env python3
"""Texts at each limit and one over it, and texts that are as deep or as large as the limits let them be.

usage: sizes.py PROGRAM FOLDER [NAMES]      NAMES has names whose hashes meet (meeting.c)

Each run has to give its answer within 10 s of processor time, and a second more for each 8 MB that it writes, and within 4 GB,
with the stack that the caller gives it. A run that makes no netlist and no design has to do with 100 times the bytes that it
reads, where these are 500,000 or more. Where a run takes more than half a second, one of half the size has to take a 2.6th of
it or more, or six of half the size a 2.6th of six; a netlist whose instances stand deep in one another may take the square,
since its names, and so its text, grow so.

Prints a line for each run, and the status is 0 where all held."""
import os, pathlib, subprocess, sys, typing

import shapes
from asking import Said, not_allowed

SECONDS, WRITTEN, MEMORY, TIMES, RATIO = 10, 8_000_000, 4_000_000_000, 100, 2.6
WEIGHT, FULL = "limit weight {} over 1000000", 2**64 - 1


class Row(typing.NamedTuple):
    """A shape at a size: its commands, what each has to say, and what one over the size says, where that is said."""

    shape: typing.Callable
    size: int
    commands: str
    at: typing.Callable
    over: str = ""
    makes: bool = False  # The commands make a netlist or a design.
    deep: bool = False  # Its instances stand deep in one another.


def accepted(said, size):
    return said.out == b"accepted\n"


def done(said, size):
    return said.status == 0


def refused(said, size):
    return said.status == 1


def lines(said, size):
    return said.status == 0 and said.out.count(b"\n") == size


def ends(line):
    """Says this line, in which `{}` is the size."""
    return lambda said, size: said.err.decode() == line.format(size) + "\n"


def begins(line):
    return lambda said, size: said.err.decode().startswith(line)


def limit(name, most):
    return f"limit {name} {most + 1} over {most}"


NET, FIL, CAL = 16_777_216, 1_048_576, 1_048_576
TABLE = [
    Row(shapes.bytes_of_netlist, NET, "check f.net|sim f.net s.json|trace f.net s.json|verilog f.net", done, limit("source", NET)),
    Row(shapes.nots, 256, "check f.net|rows f.net 1|verilog f.net", done, limit("nesting", 256)),
    Row(shapes.brackets, 256, "check f.net|rows f.net 1|verilog f.net", done, limit("nesting", 256)),
    Row(shapes.long_list, 1_000_000, "check f.net|rows f.net 1|verilog f.net", done, WEIGHT.format(1_000_001)),
    Row(shapes.many_sets, 1_000_000, "check f.net|verilog f.net", done, WEIGHT.format(1_000_001)),
    Row(shapes.many_sets, 1_000_000, "sim f.net s.json", ends("conflict cycle 0 port q")),
    Row(shapes.long_loop, 400_000, "check f.net", begins("refused N6 n item 0 loop w000000 w000001 w000002 ")),
    Row(shapes.loops, 100_000, "check f.net", ends("refused N6 n item 0 loop b000000 c000000")),
    Row(shapes.number, 16_000_000, "check f.net", refused),
    Row(shapes.memories, 1_048_576, "check f.net|rows f.net 1|verilog f.net", done, limit("words", 1_048_576)),
    Row(shapes.cycles, 1_000_000, "sim f.net s.json", lines, limit("cycles", 1_000_000)),
    Row(shapes.entries, 100_000, "sim f.net s.json", done, limit("transactions", 100_000)),
    Row(shapes.bytes_of_stimulus, 16_777_216, "sim f.net s.json", done, limit("stimulus", 16_777_216)),
    Row(shapes.lists, 127, "sim f.net s.json", ends("stimulus S2"), "stimulus S1"),
    Row(shapes.lists, 8_000_000, "sim f.net s.json", ends("stimulus S1")),
    Row(shapes.keys, 900_000, "sim f.net s.json", ends("stimulus S2")),
    Row(shapes.same_keys, 90_000, "sim f.net s.json", ends("stimulus S5 entry 1 starts 1 1 delay 1")),
    Row(shapes.digits, 16_000_000, "sim f.net s.json", ends("stimulus S1")),
    Row(shapes.wide_value, 16_000_000, "sim f.net s.json", ends("stimulus S2")),
    Row(shapes.bytes_of_fil, FIL, "check f.fil", accepted, limit("source", FIL)),
    Row(shapes.fil_brackets, 64, "check f.fil", ends("refused grammar at byte 0"), limit("nesting", 64)),
    Row(shapes.fil_brackets, FIL, "check f.fil", ends("limit nesting {} over 64")),
    Row(shapes.delay, 4096, "check f.fil", accepted, limit("offset", 4096)),
    Row(shapes.far, 1_000_000, "check f.fil", ends("refused token at byte 10")),
    Row(shapes.offset, 4096, "check f.fil|net f.fil", done, limit("offset", 4096), makes=True),
    Row(shapes.events, 16, "check f.fil", accepted, "refused F5 A item 0"),
    Row(shapes.fil_weight, 1_000_000, "check f.fil|net f.fil|lower f.fil|verilog f.fil", done, WEIGHT.format(1_000_001), makes=True),
    Row(shapes.fil_doubling, 64, "check f.fil", ends(WEIGHT.format(FULL))),
    Row(shapes.fil_chain, 9_000, "check f.fil|flow f.fil s.json", done),
    Row(shapes.fil_chain, 9_000, "lower f.fil", done, makes=True),
    Row(shapes.fil_chain, 6_000, "net f.fil|sim f.fil s.json|verilog f.fil", done, makes=True, deep=True),
    Row(shapes.shared, 12, "check f.fil|net f.fil|flow f.fil s.json|timeline f.fil s.json", done, limit("offset", 4096).replace("4097", "8192")),
    Row(shapes.fil_ports, 15_000, "check f.fil|net f.fil", done, makes=True),
    Row(shapes.one_instance, 4096, "check f.fil|net f.fil", done, makes=True),
    Row(shapes.rows_of_mac, 1_000_000, "sim f.fil s.json", lines, limit("cycles", 1_000_000)),
    Row(shapes.repeated, 100_000, "flow f.fil s.json", lines, limit("transactions", 100_000)),
    Row(shapes.repeated, 100_000, "timeline f.fil s.json|sim f.fil s.json|trace f.fil s.json", done),
    Row(shapes.repeated, FULL, "flow f.fil s.json", ends("limit transactions {} over 100000")),
    Row(shapes.one_by_one, 100_000, "flow f.fil s.json|timeline f.fil s.json", done, limit("transactions", 100_000)),
    Row(shapes.bytes_of_transactions, 16_777_216, "sim f.fil s.json", done, limit("stimulus", 16_777_216)),
    Row(shapes.bytes_of_cal, CAL, "check f.futil|net f.futil", done, limit("source", CAL)),
    Row(shapes.cal_parentheses, 64, "check f.futil|net f.futil", done, limit("nesting", 64)),
    Row(shapes.cal_nots, 64, "check f.futil|net f.futil", done, limit("nesting", 64)),
    Row(shapes.cal_control, 64, "check f.futil|net f.futil|lower f.futil|sim f.futil s.json|sched f.futil s.json", done, limit("nesting", 64)),
    Row(shapes.cal_weight, 1_000_000, "check f.futil|net f.futil|lower f.futil", done, WEIGHT.format(1_000_001), makes=True),
    Row(shapes.cal_doubling, 64, "check f.futil", ends(WEIGHT.format(FULL))),
    Row(shapes.cal_chain, 15_000, "check f.futil", accepted),
    Row(shapes.cal_chain, 15_000, "net f.futil", done, makes=True, deep=True),
    Row(shapes.cal_memories, 1_048_576, "check f.futil|sim f.futil s.json", done, limit("words", 1_048_576)),
    Row(shapes.cal_cycles, 1_000_000, "sim f.futil s.json|sched f.futil s.json", lines, limit("cycles", 1_000_000)),
    Row(shapes.enables, 40_000, "net f.futil|lower f.futil|verilog f.futil|sim f.futil s.json|sched f.futil s.json", done, makes=True),
    Row(shapes.together, 9_000, "check f.futil|net f.futil", done, makes=True),
    Row(shapes.cal_loop, 20_000, "check f.futil", begins("refused C12 main item 0 loop w00000.in w00001.out w00001.in ")),
    Row(shapes.long_names, 4_000, "check f.futil", accepted),
    Row(shapes.fil_long_names, 4_000, "check f.fil", accepted),
    Row(shapes.long_name_loop, 4_000, "check f.futil", ends("refused C12 main item 0 loop w.in w.out")),
    Row(shapes.many_instances, 14_000, "check f.fil", begins("limit weight ")),
    Row(shapes.bottomless, 480, "check f.net", ends("limit weight 15913920 over 1000000")),
    Row(shapes.cal_many_nots, 12_000, "check f.futil", accepted),
    Row(shapes.many_cells, 20_000, "check f.futil", begins("limit weight ")),
    Row(shapes.meeting_wires, 50_000, "check f.net", accepted),
    Row(shapes.meeting_instances, 40_000, "check f.fil", accepted),
    Row(shapes.enables, 300_000, "check f.futil", accepted),
    Row(shapes.enables, 500_000, "net f.futil", done, makes=True),
    Row(shapes.cal_reach, 8_000, "check f.futil", accepted),
    Row(shapes.cal_reach_loop, 8_000, "check f.futil", ends("refused C12 main item 0 loop x.a0 x.o7999")),
    Row(shapes.cal_reach_cells, 400, "check f.futil", accepted),
    Row(shapes.fil_reach, 8_000, "check f.fil", accepted),
    Row(shapes.fil_reach_loop, 8_000, "check f.fil", ends("refused F14 main item 0 loop N.in W.o7999 W.a0 N.out")),
    Row(shapes.fil_long_name_loop, 4_000, "check f.fil", ends("refused F14 main item 0 loop M.in N.out N.in M.out")),
    Row(shapes.cal_long_parts_loop, 12_000, "check f.futil", ends("refused C12 main item 0 loop l.in l.out")),
    Row(shapes.cal_idle_ports_loop, 9_000, "check f.futil", ends("refused C12 main item 0 loop l.in l.out")),
    Row(shapes.fil_long_parts_loop, 12_000, "check f.fil", ends("refused F14 main item 0 loop M.in N.out N.in M.out")),
    Row(shapes.cal_wide_parts_loop, 12_000, "check f.futil", ends("refused C12 main item 0 loop l.in l.out")),
    Row(shapes.cal_wide_holders_loop, 7_000, "check f.futil", ends("refused C12 main item 0 loop l.in l.out")),
    Row(shapes.fil_wide_holders_loop, 6_500, "check f.fil", ends("refused F14 main item 0 loop M.in N.out N.in M.out")),
]


class Cost(typing.NamedTuple):
    seconds: float
    memory: int
    read: int
    written: int


def write(folder, files):
    for name, text in files.items():
        (folder / name).write_text(text)


def measure(program, words, folder):
    """What came of a run, its processor seconds, its memory, and the bytes of the files that it was given."""
    cost = [sys.executable, pathlib.Path(__file__).with_name("cost.py"), folder, str(6 * SECONDS), program, *words]
    status, seconds, memory = subprocess.run(cost, stdout=subprocess.PIPE, check=True).stdout.split()
    said = Said(int(status), (folder / "out").read_bytes(), (folder / "err").read_bytes())
    read = sum(os.path.getsize(folder / word) for word in words[1:] if (folder / word).exists())
    return said, Cost(float(seconds), int(memory), read, len(said.out))


def measure_twice(program, words, folder):
    """The same of the quicker of two runs, where one takes long enough to be compared."""
    said, cost = measure(program, words, folder)
    if not 0.2 < cost.seconds < SECONDS:
        return said, cost
    return said, min(cost, measure(program, words, folder)[1])


def grows(program, words, folder):
    """What is too much of six runs beside six of half the size, each after one of the other: a machine may be quick now and slow
    then, by nearly half, so what two runs take tells little."""
    runs = [[measure(program, words, it)[1].seconds for it in (folder, folder / "half")] for _ in range(6)]
    whole, half = map(sum, zip(*runs))
    if whole > RATIO * half:
        return f"six runs take {whole:.2f} s, and {half:.2f} s at half the size"
    return None


def too_much(cost, row):
    """What is too much of a run, in words; None where nothing is."""
    if cost.seconds > SECONDS + cost.written / WRITTEN:
        return f"it takes {cost.seconds:.1f} s"
    if cost.memory > MEMORY or not row.makes and cost.read >= 500_000 and cost.memory > TIMES * cost.read:
        return f"it takes {cost.memory // 10**6} MB for {cost.read} bytes"
    return None


def try_over(program, folder, row):
    """The faults one over the size of a row."""
    write(folder, row.shape(row.size + 1))
    for command in row.commands.split("|"):
        said, cost = measure(program, command.split(), folder)
        wrong = not_allowed(said, command.split()[0]) or too_much(cost, row)
        if wrong or said.err.decode() != f"{row.over}\n":
            yield f"{row.shape.__name__} {row.size + 1}, {command}: {wrong or said}"[:300]


def try_row(program, folder, row):
    """The faults at the size of a row, and in growth where it is no small limit. What a run costs is printed."""
    halves = {}
    if row.size > 300 and row.size != FULL:
        write(folder / "half", row.shape(row.size // 2))
        halves = {command: measure_twice(program, command.split(), folder / "half")[1] for command in row.commands.split("|")}
    write(folder, row.shape(row.size))
    for command in row.commands.split("|"):
        said, cost = measure_twice(program, command.split(), folder)
        told = f"{row.shape.__name__} {row.size}, {command}: status {said.status}, {cost.seconds:.2f} s, {cost.memory // 10**6} MB for {cost.read} bytes"
        print(told + (f"; one over: {row.over}" if row.over else ""), flush=True)
        half = halves.get(command)
        wrong = not_allowed(said, command.split()[0]) or too_much(cost, row)
        if not wrong and half and not row.deep and cost.seconds > 0.5 and cost.seconds > RATIO * half.seconds:
            wrong = grows(program, command.split(), folder)
        if wrong or not row.at(said, row.size):
            short = said._replace(out=said.out[-80:], err=said.err[-200:])
            yield f"{row.shape.__name__} {row.size}, {command}: {wrong or short}"


def tried(rows):
    """The rows that can be tried; names whose hashes meet are made by a C program."""
    for row in rows:
        if shapes.MEETING or row.shape not in (shapes.meeting_wires, shapes.meeting_instances):
            yield row
        else:
            print(f"skipped: {row.shape.__name__}, since there are no such names")


def main():
    program, folder = (pathlib.Path(word).resolve() for word in sys.argv[1:3])
    shapes.MEETING[:] = pathlib.Path(sys.argv[3]).read_text().split() if len(sys.argv) > 3 else []
    (folder / "half").mkdir(exist_ok=True)
    for it in (folder, folder / "half"):
        (it / "counter.net").write_text(shapes.COUNTER)
    faults = []
    for row in tried(TABLE):
        faults += [*try_row(program, folder, row), *(try_over(program, folder, row) if row.over else ())]
    print(*[f"fault: {it}" for it in faults], f"faults: {len(faults)}", sep="\n")
    return 1 if faults else 0


if __name__ == "__main__":
    sys.exit(main())
