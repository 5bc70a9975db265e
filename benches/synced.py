#!/usr/bin/env python3
"""Writes so many pages of 4,096 bytes to a new file, each of them synced, and prints the seconds of the clock that it took.

usage: synced.py FILE COUNT
"""
import os
import sys
import time

page = os.urandom(4096)
file = os.open(sys.argv[1], os.O_CREAT | os.O_TRUNC | os.O_WRONLY, 0o600)
begun = time.monotonic()
for place in range(int(sys.argv[2])):
    os.pwrite(file, page, 4096 * place)
    os.fdatasync(file)
print(f"{time.monotonic() - begun:.3f}")
os.unlink(sys.argv[1])
