#!/usr/bin/env python3
"""Worked texts with one place changed, through the commands of their kind.

usage: texts.py PROGRAM FOLDER [COUNT]

Makes COUNT texts (20,000) from a seed. In each, one byte, token or line of a worked text is dropped, doubled, exchanged with
another of the text, or replaced by one that stands in another text or by a number at some limit; or the text is cut there. A
design goes through `check`, `net`, `sim` and `verilog`, and one of Calyx through `sched`, as far as they are for its kind; a
stimulus through `sim`, for Filament through `flow` and `timeline`, for Calyx through `sched`. Each run has to end in time with an answer, and to print what that answer allows; where
`check` refuses a design the other commands have to say the same, and where it accepts one they have to take it.

Prints how often each command gave each answer, and the texts that went wrong; the status is 0 where none did."""
import collections, itertools, pathlib, random, re, sys

from asking import ask, lanes, not_allowed
from worked import STIMULI, texts

SEED = 23
TOKENS = re.compile(r"[A-Za-z_$][A-Za-z0-9_$]*|[0-9]+|\s+|.", re.S)
UNITS = {"byte": list, "token": TOKENS.findall, "line": lambda text: text.splitlines(keepends=True)}
CHANGES = ("dropped", "doubled", "exchanged", "replaced", "cut")
NUMBERS = [str(n) for n in (0, 1, 2, 63, 64, 65, 127, 128, 129, 255, 256, 4096, 4097, 8192, 65536, 65537, 100001, 1000001)]
NUMBERS += [str(2**n + more) for n in (32, 63, 64, 127, 128) for more in (-1, 0)] + ["9" * 50]
COMMANDS = {".net": ("check", "sim", "verilog"), ".fil": ("check", "net", "sim", "verilog"), ".futil": ("check", "net", "sim", "sched", "verilog")}
# The commands for stimuli, by the ending of the design.
STIMULATED = {".net": ("sim",), ".fil": ("sim", "flow", "timeline"), ".futil": ("sim", "sched")}


def changed(chance, found):
    """A text with one place changed, the name of the worked text, and what was done."""
    name = chance.choices(list(found), [len(text) for text in found.values()])[0]
    unit = chance.choice(list(UNITS))
    change = chance.choice(CHANGES)
    parts = UNITS[unit](found[name])
    here, there = chance.randrange(len(parts)), chance.randrange(len(parts))
    if change == "dropped":
        del parts[here]
    elif change == "doubled":
        parts.insert(here, parts[here])
    elif change == "exchanged":
        parts[here], parts[there] = parts[there], parts[here]
    elif change == "replaced":
        others = UNITS[unit](found[chance.choice(list(found))]) + NUMBERS * (unit == "token")
        parts[here] = chance.choice(others)
    else:
        del parts[here:]
    return "".join(parts), name, f"{unit} {here} {change}"


def questions(folder, file, name):
    """The commands that a text in a file goes through, each with its words."""
    base = pathlib.Path(name)
    if base.suffix == ".json":
        design = next(base.with_suffix(ending).name for ending in STIMULI if (folder / base.with_suffix(ending).name).exists())
        return [(command, [command, design, file]) for command in STIMULATED[pathlib.Path(design).suffix]]
    stimulus = base.with_suffix(".json").name
    if not (folder / stimulus).exists():
        stimulus = f"plain{base.suffix}.json"
    return [(command, [command, file, *[stimulus] * (command in ("sim", "sched"))]) for command in COMMANDS[base.suffix]]


def disagreement(said):
    """Where commands that read the same design do not take it alike, in words; None where they do."""
    if "sched" in said and (said["sched"].status, said["sched"].err) != (said["sim"].status, said["sim"].err):
        return f"sim says {said['sim'].status} {said['sim'].err!r}, sched {said['sched'].status} {said['sched'].err!r}"
    checked = said.get("check")
    if not checked or checked.status is None:
        return None
    for command, other in said.items():
        if checked.status and other != checked:
            return f"check says {checked.err!r}, {command} {other.err[:200]!r}"
        if not checked.status and other.status not in ((0, 6, 7, 8) if command in ("sim", "sched") else (0,)):
            return f"check accepts it, {command} says {other.err[:200]!r}"
    return None


def try_text(program, folder, number, text, name, change):
    """The answers of the commands to a text, and what is wrong with them."""
    file = f"{number}{pathlib.Path(name).suffix}"
    (folder / file).write_text(text)
    said = {command: ask(program, words, folder) for command, words in questions(folder, file, name)}
    wrong = [f"{command}: {why}" for command, it in said.items() if (why := not_allowed(it, command))]
    # No words are wrong, each file can be read, and there is memory.
    wrong += [f"{command}: status {it.status}" for command, it in said.items() if it.status in (2, 3, 4, 5)]
    wrong += filter(None, [disagreement(said)])
    if not wrong:
        (folder / file).unlink()
    return said, [f"{folder}/{file}, {name} with {change}: {why}" for why in wrong]


def main():
    program, folder = pathlib.Path(sys.argv[1]).resolve(), pathlib.Path(sys.argv[2]).resolve()
    count = int(sys.argv[3]) if len(sys.argv) > 3 else 20_000
    chance, found = random.Random(SEED), texts()
    for name, text in found.items():
        (folder / name).write_text(text)
    for ending, text in STIMULI.items():
        (folder / f"plain{ending}.json").write_text(text)
    answers, faults = collections.Counter(), []
    with lanes() as pool:
        tries = (pool.submit(try_text, program, folder, number, *changed(chance, found)) for number in range(count))
        while batch := list(itertools.islice(tries, 500)):
            for it in batch:
                said, wrong = it.result()
                answers.update((command, answer.status) for command, answer in said.items())
                faults += wrong
    print(f"{count} texts from the seed {SEED}, of {len(found)} worked texts: {sum(answers.values())} runs")
    for command in sorted({command for command, _ in answers}):
        counts = sorted((status, n) for (it, status), n in answers.items() if it == command and status is not None)
        print(f"  {command}: " + ", ".join(f"status {status} {n} times" for status, n in counts))
    print(*[f"fault: {it}" for it in faults], f"faults: {len(faults)}", sep="\n")
    return 1 if faults else 0


if __name__ == "__main__":
    sys.exit(main())
