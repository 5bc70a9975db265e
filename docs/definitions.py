#!/usr/bin/env python3
"""Makes docs/DEFINITIONS.md from the sources: the files that define what the theorem stands on, in reading order.

    python3 docs/definitions.py            writes it
    python3 docs/definitions.py --check    says whether it isn't what the sources say any more

The definitions and their order are those of tests/statement.sh: depth first, as each names others. A file stands where its
first definition comes.
"""
import os
import subprocess
import sys

ROOT = os.path.join(os.path.dirname(os.path.abspath(__file__)), '..')
STATEMENT = 'world_core.specs.Laws.ComesOut'
HEAD = """# The definitions of the headline

What [the theorem](THEOREM.md#the-theorem) stands on: {count}. A contract says what a function does by such definitions: these have to be believed, all else is proved against them. `tests/statement.sh --text {statement}` prints them whole, in the reading order of the files below, each a [crate](../crates)'s `specs/<name>.antt`, with comments.

They are written in antt: a function by cases on a value, or a relation as a type (`A × B` is "and", `⊎` is "or", `(x : A) × P` is "some x with P"). A text is the list of its bytes. Words of the kit's library, such as `All`, `Contains`, `lines`, are in its guide `CONTRACT_STYLE.md`. [`definitions.py`](definitions.py) makes this page.

"""


def read(path):
    with open(os.path.join(ROOT, path), encoding='utf-8') as file:
        return file.read()


def text():
    out = subprocess.run(['tests/statement.sh', STATEMENT], cwd=ROOT, check=True, capture_output=True, text=True).stdout
    *rows, last = out.strip().split('\n')
    files = dict.fromkeys(path for path in (row.split(':')[0] for row in rows) if path.endswith('.antt'))
    crates = []  # each crate with the files of it that come next
    for path in files:
        crate, file = path.removeprefix('crates/').removesuffix('.antt').split('/specs/')
        if not crates or crates[-1][0] != crate:
            crates.append((crate, []))
        crates[-1][1].append(file)
    lines = [f'- {crate}: {", ".join(names)}\n' for crate, names in crates]
    return HEAD.format(count=last.split(': ', 1)[1], statement=STATEMENT) + ''.join(lines)


def main():
    path, now = os.path.join(ROOT, 'docs/DEFINITIONS.md'), text()
    if sys.argv[1:] == ['--check']:
        sys.exit(0 if read('docs/DEFINITIONS.md') == now else 'docs/DEFINITIONS.md isn\'t as the sources say: run docs/definitions.py')
    with open(path, 'w', encoding='utf-8') as file:
        file.write(now)


main()
