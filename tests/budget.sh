#!/usr/bin/env bash
# Reads what a run of `rt ci` costs by crate, and compares it with the table of docs/ARCHITECTURE.md.
#   tests/budget.sh                  runs `rt ci`, whose output and status pass through
#   tests/budget.sh WORD..           the same with another command, as `tests/budget.sh rt check`
#   tests/budget.sh --compare FILE   compares the figures of an earlier run, as this script printed them
#
# Twice a second it looks at the processes that the run began, and adds up the processor's time of each: by the crate that it
# works on, and by whether it checks the tests or an edit. The table goes to the error stream, ready to be put in place of the
# one that stands there.
#
# It fails where a crate became half as dear again: where it takes more than 1.5 times its line of the table, and a minute
# more. A slow host makes no crate dearer: all lines of the table are first multiplied by one number, the middle one of what
# the crates took by their lines. So what counts is what a crate takes beside the others. What an earlier run of `rt ci` kept
# takes next to nothing, so crates of less than a minute don't count for that number, and where fewer than eight are left
# nothing is compared. Where a crate has to be dearer, its line is changed with it. A figure behind `~` and one that is `?`
# weren't measured on this tree, and are compared with nothing.
set -u
cd "$(dirname "$0")/.." || exit 2
exec python3 - "$@" <<'PYTHON'
import os
import re
import signal
import statistics
import subprocess
import sys
import time

KINDS = ('Proof', 'Tests', 'Edits')
HEAD = '| Crate | Proof | Tests | Edits | Memory |'
DOCUMENT = 'docs/ARCHITECTURE.md'
TICKS = os.sysconf('SC_CLK_TCK')
FEWEST = 8


def read(path):
    try:
        with open(path, 'rb') as file:
            return file.read()
    except OSError:
        return b''


def table_of(path):
    """The figures of the table in a file: by crate, minutes of each kind, None where it wasn't measured."""
    figures, inside = {}, False
    for line in read(path).decode().splitlines():
        cells = [it.strip() for it in line.strip().strip('|').split('|')]
        if line.startswith(HEAD):
            inside = True
        elif not line.startswith('|'):
            inside = False
        elif inside and not line.startswith('|---'):
            number = lambda cell: 0.0 if cell == '-' else None if cell[:1] in ('?', '~', '') else float(cell)
            figures[cells[0].strip('`')] = [number(it) for it in cells[1:4]]
    return figures


def written(figures, memory):
    """The table of such figures."""
    yield HEAD
    yield '|---|---|---|---|---|'
    for crate, minutes in figures.items():
        cells = [f'{it:.1f}' if it and it >= 0.05 else '-' for it in minutes]
        yield f'| {crate} | {" | ".join(cells)} | {memory.get(crate, 0) / 1e6:.1f} |'


def complaints(figures, table):
    """Which crates are half as dear again as their lines say."""
    whole = lambda line: None if None in line else sum(line)
    done = [it for it in figures if sum(figures[it]) > 1 and (whole(table.get(it, [None])) or 0) > 1]
    if len(done) < FEWEST:
        print(f'{len(done)} crates took more than a minute and have figures in {DOCUMENT}: too few to compare', file=sys.stderr)
        return
    ratios = [sum(figures[it]) / whole(table[it]) for it in done]
    scale = statistics.median(ratios)
    print(f'by the middle of {len(ratios)} crates this run takes {scale:.2f} times the minutes of {DOCUMENT}', file=sys.stderr)
    for crate, minutes in figures.items():
        should = whole(table[crate]) if crate in table else 0
        if should is None:
            print(f'{crate} has a figure in {DOCUMENT} that was not measured: nothing is compared', file=sys.stderr)
        elif sum(minutes) > scale * max(1.5 * should, should + 1):
            yield f'{crate} takes {sum(minutes):.1f} minutes of a processor, and {scale * should:.1f} would be as its line says'


class Run:
    """The processes that a command began, and what they took."""

    def __init__(self):
        self.seconds, self.known, self.memory = {}, {}, {}

    def below(self, top):
        """The processes below one, each with the words of its /proc/PID/stat from the state on."""
        stats, lower = {}, {}
        for name in os.listdir('/proc'):
            if name.isdigit():
                words = read(f'/proc/{name}/stat').rpartition(b')')[2].split()
                if len(words) > 20:
                    stats[int(name)] = words
                    lower.setdefault(int(words[1]), []).append(int(name))
        left = [top]
        while left:
            for pid in lower.get(left.pop(), []):
                left.append(pid)
                yield pid, stats[pid]

    def kind_of(self, pid, parent):
        """The crate that a process works on, and at what; else what its parent does."""
        line = read(f'/proc/{pid}/cmdline').decode(errors='replace')
        words = line.split('\0')
        try:
            folder = os.readlink(f'/proc/{pid}/cwd')
        except OSError:
            folder = ''
        if '--crate-name' in words[:-1]:
            crate = words[words.index('--crate-name') + 1]
            kind = 'Edits' if re.search(r'/rt-edit', folder) else 'Tests' if '--test' in words else 'Proof'
            return crate, kind
        runs = re.search(r'/rt-run-[^/]*/bin/(\w+?)(_tests)?(?:\0|$)', line)
        if runs:
            return runs[1], 'Tests' if runs[2] else 'Proof'
        if parent in self.known:
            return self.known[parent][1]
        inside = re.search(r'/crates/(\w+)$', folder)
        return (inside[1], 'Proof') if inside else None

    def look(self, top):
        for pid, words in self.below(top):
            # (a process is told from a later one of its number by when it began)
            began = words[19]
            if self.known.get(pid, [None])[0] != began:
                what = self.kind_of(pid, int(words[1]))
                if not what:
                    continue
                self.known[pid] = [began, what]
            what = self.known[pid][1]
            self.seconds[pid, began] = what, (int(words[11]) + int(words[12])) / TICKS
            greatest = re.search(rb'VmHWM:\s+(\d+)', read(f'/proc/{pid}/status'))
            if greatest:
                self.memory[what[0]] = max(self.memory.get(what[0], 0), int(greatest[1]))

    def figures(self, order):
        """The minutes of each crate by kind, in this order."""
        found = {}
        for (crate, kind), seconds in self.seconds.values():
            found.setdefault(crate, [0.0] * 3)[KINDS.index(kind)] += seconds / 60
        return {it: found[it] for it in sorted(found, key=lambda it: (order.index(it) if it in order else len(order), it))}


def main(words):
    order = [it.split()[0].rstrip(':') for it in read('crates.txt').decode().splitlines() if it and it[0] != '#']
    table, status = table_of(DOCUMENT), 0
    if words[:1] == ['--compare']:
        figures = table_of(words[1])
    else:
        began, run = time.monotonic(), Run()
        child = subprocess.Popen(words or ['rt', 'ci'])
        for number in (signal.SIGTERM, signal.SIGINT, signal.SIGHUP):
            signal.signal(number, lambda number, _: child.send_signal(number))
        status = None
        while status is None:
            run.look(child.pid)
            try:
                status = child.wait(0.5)
            except subprocess.TimeoutExpired:
                pass
        figures = run.figures(order)
        for line in written(figures, run.memory):
            print(line, file=sys.stderr)
        total = [sum(it[at] for it in figures.values()) for at in range(3)]
        print('{:.0f} minutes of clock; of one processor {:.0f}: proofs {:.0f}, tests {:.0f}, edits {:.0f}'.format(
            (time.monotonic() - began) / 60, sum(total), *total), file=sys.stderr)
    if not figures:
        print('no process of a crate was seen', file=sys.stderr)
    if status or not figures:
        # (a run that failed is cut short: its figures say nothing)
        return status if status > 0 else 128 - status if status else 2
    dear = list(complaints(figures, table))
    for it in dear:
        print(it, file=sys.stderr)
    return 1 if dear else 0


sys.exit(main(sys.argv[1:]))
PYTHON
