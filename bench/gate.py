#!/usr/bin/env python3
"""Runs the gate on a fresh clone of the last commit, and adds up the processor time of its proofs, crate by crate.

usage: gate.py [FOLDER]      the clone is made in FOLDER, or in a new folder below /tmp

A crate's time is told in three parts, in processor minutes: its own proof, the proof with its tests, and its must-fail
edits. The time of each run of the prover is read from /proc twice a second, so the last half second of a run may be missed.
So is its memory: the most that a run of the crate held, and the most that all runs held at once, in GB.
The gate's own lines go to FOLDER/gate.log."""
import collections, os, pathlib, subprocess, sys, tempfile, time

TICKS = os.sysconf("SC_CLK_TCK")
PAGE = os.sysconf("SC_PAGE_SIZE")
PARTS = ("proof", "tests", "edits")


def status_of(process):
    """A process's parent, its start, its processor seconds (its own, and those of its children that have ended), and its bytes of memory."""
    fields = (process / "stat").read_text().rsplit(")", 1)[1].split()
    own, ended = int(fields[11]) + int(fields[12]), int(fields[13]) + int(fields[14])
    return fields[1], fields[19], own / TICKS, ended / TICKS, int(fields[21]) * PAGE


def part_of(process, clone):
    """The crate and the part of a run of the gate's prover; None of another process."""
    words = (process / "cmdline").read_bytes().decode(errors="replace").split("\0")
    if os.path.basename(words[0]) != "rattle" or "--crate-name" not in words:
        return None
    folder = os.readlink(process / "cwd")
    is_edit = "/rt-edit-" in folder
    if not is_edit and not folder.startswith(f"{clone}/"):
        return None
    part = "edits" if is_edit else "tests" if "--test" in words else "proof"
    return words[words.index("--crate-name") + 1], part


def runs_now(clone):
    """The runs of the prover that are under way, each with its crate, its part, its processor seconds so far and its bytes of memory."""
    found = {}
    for process in pathlib.Path("/proc").iterdir():
        try:
            part = process.name.isdigit() and part_of(process, clone)
            if part:
                found[process.name] = part, *status_of(process)
        except OSError:
            pass
    runs = {}
    for number, (part, parent, start, own, ended, held) in found.items():
        # The prover works in copies of itself: the time of those that have ended is their parent's.
        top = parent if parent in found else number
        run = top, found[top][2]
        seconds = own if parent in found else own + ended
        _, before, beside = runs.get(run, (part, 0, 0))
        runs[run] = part, before + seconds, beside + held
    return runs


def watch(gate, clone):
    """The processor seconds of each crate's parts until the gate ends; and the most memory of each crate, and of all at once under None."""
    seen, most = {}, collections.Counter()
    while gate.poll() is None:
        runs = runs_now(clone)
        for run, (part, seconds, held) in runs.items():
            seen[run] = part, max(seconds, seen.get(run, (part, 0))[1])
            most[part[0]] = max(most[part[0]], held)
        most[None] = max(most[None], sum(held for _, _, held in runs.values()))
        time.sleep(0.5)
    sums = collections.Counter()
    for part, seconds in seen.values():
        sums[part] += seconds
    return sums, most


def show(sums, most):
    """The table, in the form of gate.md."""
    crates = sorted({crate for crate, _ in sums})
    print("| Crate | Proof | Tests | Edits | Sum | Memory |\n|---|---|---|---|---|---|")
    for crate in [*crates, None]:
        minutes = [sum(s for (name, part), s in sums.items() if part == it and crate in (name, None)) / 60 for it in PARTS]
        cells = [f"{it:.1f}" if it >= 0.05 else "" for it in minutes]
        print(f"| {f'`{crate}`' if crate else 'all'} | {' | '.join(cells)} | {sum(minutes):.1f} | {most[crate] / 1e9:.1f} |")


def main():
    top = pathlib.Path(__file__).resolve().parent.parent
    room = pathlib.Path(sys.argv[1] if len(sys.argv) > 1 else tempfile.mkdtemp(prefix="gate-"))
    clone = (room / "clone").resolve()
    subprocess.run(["git", "clone", "-q", str(top), str(clone)], check=True)
    started = time.time()
    with open(room / "gate.log", "w") as log:
        gate = subprocess.Popen([".ci/run"], cwd=clone, stdin=subprocess.DEVNULL, stdout=log, stderr=log)
        sums, most = watch(gate, clone)
    show(sums, most)
    print(f"\n{(room / 'gate.log').read_text().splitlines()[-1]}; {(time.time() - started) / 60:.0f} minutes on {os.cpu_count()} processors")
    return gate.returncode


sys.exit(main())
