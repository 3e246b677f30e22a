#!/usr/bin/env python3
"""Runs a program with its streams in files, and tells its status, its processor seconds and the most memory that it had.

usage: cost.py FOLDER SECONDS PROGRAM WORD..

It stands alone because a process is counted the memory of the one that it was forked from: this one is small. The streams go
to the files `out` and `err` of the folder. A run has so many processor seconds and 4.2 GB, so that it takes no more of a machine."""
import os, resource, subprocess, sys

folder, seconds, *words = sys.argv[1:]
resource.setrlimit(resource.RLIMIT_CPU, (int(seconds), int(seconds) + 1))
resource.setrlimit(resource.RLIMIT_AS, (4_200_000_000, 4_200_000_000))
with open(f"{folder}/out", "wb") as out, open(f"{folder}/err", "wb") as err:
    run = subprocess.Popen(words, cwd=folder, stdin=subprocess.DEVNULL, stdout=out, stderr=err)
_, status, used = os.wait4(run.pid, 0)
print(os.waitstatus_to_exitcode(status), used.ru_utime + used.ru_stime, used.ru_maxrss * 1024)
