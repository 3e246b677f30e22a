"""Runs of the program, and what an answer allows it to print."""
import concurrent.futures, os, signal, subprocess, typing

# How many runs go on side by side.
LANES = int(os.environ.get("LANES", "2"))
# The processor seconds in which a run has to end.
SECONDS = 10
TICKS = os.sysconf("SC_CLK_TCK")
# How the one line on standard error begins at each answer that has one.
LINES = {1: b"refused ", 2: b"usage: ", 3: b"read fault: ", 5: b"out of memory\n", 6: b"stimulus ", 7: b"conflict ", 8: b"limit "}


class Said(typing.NamedTuple):
    """What came of a run: below 0 the status is that of a signal; None where the run had not ended in time."""

    status: typing.Optional[int]
    out: bytes
    err: bytes


def spent(run):
    """The processor seconds of a run so far, and whether it sleeps."""
    with open(f"/proc/{run.pid}/stat", "rb") as stat:
        fields = stat.read().rsplit(b")", 1)[1].split()
    return (int(fields[11]) + int(fields[12])) / TICKS, fields[0] == b"S"


def ask(program, words, folder, **how):
    """Runs the program with these words in a folder."""
    streams = {"stdin": subprocess.DEVNULL, "stdout": subprocess.PIPE, "stderr": subprocess.PIPE}
    with subprocess.Popen([program, *words], cwd=folder, **streams, **how) as run:
        # On a machine with much to do a run may wait long for a processor; one that sleeps and comes no further is stopped.
        before = None
        while True:
            try:
                out, err = run.communicate(timeout=SECONDS)
                return Said(run.returncode, out, err)
            except subprocess.TimeoutExpired:
                now = spent(run)
                if now[0] >= SECONDS or now[1] and now == before:
                    break
                before = now
        run.kill()
        run.communicate()
    return Said(None, b"", b"")


def not_allowed(said, command):
    """What the answer does not allow, in words; None where all is as it is to be."""
    status, out, err = said
    if status is None:
        return "it did not end in time"
    if status < 0:
        return f"it was ended by {signal.Signals(-status).name}"
    if status > 8:
        return f"its status is {status}"
    if err.count(b"\n") != (status in LINES) or err[-1:] not in (b"", b"\n"):
        return f"at status {status} it printed {err!r} on standard error"
    if not err.startswith(LINES.get(status, b"")):
        return f"at status {status} its line is {err!r}"
    if status in (1, 2, 3, 6, 8) and out:
        return f"at status {status} it printed {len(out)} bytes on standard output"
    if status in (0, 7) and out[-1:] not in (b"", b"\n"):
        return "its last row has no end"
    if command == "check" and status == 0 and out != b"accepted\n":
        return f"it accepted by {out[:80]!r}"
    return None


def lanes():
    """A pool in which so many runs go on side by side."""
    return concurrent.futures.ThreadPoolExecutor(LANES)
