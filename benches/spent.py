#!/usr/bin/env python3
"""Runs a command and prints what it took: seconds of a processor, seconds of the clock, and its memory at most in kB.

usage: spent.py INPUT OUTPUT COMMAND WORD..      (files; the least seconds of RUNS runs, else of one)
"""
import os
import resource
import subprocess
import sys
import time

runs = int(os.environ.get("RUNS", "1"))
spent = []
for _ in range(runs):
    before = resource.getrusage(resource.RUSAGE_CHILDREN)
    begun = time.monotonic()
    with open(sys.argv[1], "rb") as source, open(sys.argv[2], "wb") as to:
        ended = subprocess.run(sys.argv[3:], stdin=source, stdout=to, check=False)
    clock = time.monotonic() - begun
    after = resource.getrusage(resource.RUSAGE_CHILDREN)
    if ended.returncode > 1:
        sys.exit(f"{' '.join(sys.argv[3:])}: status {ended.returncode}")
    spent.append((after.ru_utime - before.ru_utime + after.ru_stime - before.ru_stime, clock, after.ru_maxrss))
print(f"{min(spent)[0]:.3f} {min(it[1] for it in spent):.3f} {spent[-1][2]}")
