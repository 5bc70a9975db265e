#!/usr/bin/env bash
# Runs the cases of tests/scripts on the built program, and compares what it prints.
#
# NAME.in is a script, NAME.out what it prints, NAME.status its status where that isn't 0. NAME.stops has three parts, parted
# by lines `--`: stops, lines that go behind the script, and how the answers end. The script is run with each of the stops
# before each of its lines behind the first `recall`, and at its end.
#
# NAME.commands has command lines behind `$ `, with words as a shell parts them, though no shell reads them. Behind each come
# what it prints; a line `! TEXT` for each of the first lines of the error stream, which begins so (`!` alone: there is none;
# without such a line the error stream isn't looked at); and `= N`, the status where it isn't 0. The commands of a case run one
# after another in a new folder, with copies of tests/scripts/files and the empty folders `d` and `e`.
#
# Run by hand, and by the gate on the program that it built. RECALL names another program; words name the cases to run. It
# prints a line a case, and last how many passed. Status 1 where one differs or none ran, 2 where there is no program.
set -u
here=$(cd "$(dirname "$0")/.." && pwd) || exit 2
recall=${RECALL:-}
if [ -z "$recall" ]; then
    "$here/recall" --help >/dev/null || exit 2
    recall="$here/crates/recall_cli/out/recall_cli"
fi
recall=$(realpath -e -- "$recall") && [ -x "$recall" ] || { echo "there is no program ${RECALL:-}" >&2; exit 2; }
work=$(mktemp -d) || exit 2
trap 'rm -rf "$work"' EXIT
python3 - "$recall" "$here/tests/scripts" "$work" "$@" <<'PYTHON'
import difflib
import os
import shlex
import shutil
import subprocess
import sys

recall, cases, work, wanted = sys.argv[1], sys.argv[2], sys.argv[3], sys.argv[4:]


def read(name):
    with open(f'{cases}/{name}', 'rb') as file:
        return file.read()


def run(words, given=b''):
    """The status of a command, and what it prints on both streams."""
    ran = subprocess.run([recall, *words], input=given, capture_output=True, cwd=f'{work}/folder', timeout=60)
    return ran.returncode, ran.stdout, ran.stderr


def folder():
    shutil.rmtree(f'{work}/folder', ignore_errors=True)
    shutil.copytree(f'{cases}/files', f'{work}/folder')
    os.mkdir(f'{work}/folder/d')
    os.mkdir(f'{work}/folder/e')


def compare(what, was, printed):
    """What differs between what should be printed and what is."""
    if was == printed:
        return []
    both = [it.decode(errors='backslashreplace').splitlines() for it in (was, printed)]
    return [what, *difflib.unified_diff(*both, 'as it should be', 'printed', lineterm='')] + ['(line ends)'] * (both[0] == both[1])


def script_differs(name):
    """What is wrong with a script."""
    status, printed, _ = run(['sim'], read(f'{name}.in'))
    is_other = os.path.exists(f'{cases}/{name}.status')
    should = int(read(f'{name}.status')) if is_other else 0
    wrong = [] if status == should else [f'status {status}, and not {should}']
    return wrong + compare('the answers', read(f'{name}.out'), printed)


def stops_differ(name):
    """What is wrong with a script in which a site stops somewhere."""
    stops, behind, end = (it.encode() for it in read(f'{name}.stops').decode().split('--\n'))
    lines = read(f'{name}.in').splitlines(True)
    first = next(place for place, line in enumerate(lines) if line.startswith(b'recall '))
    wrong = []
    for place in range(first + 1, len(lines) + 1):
        for stop in stops.splitlines(True):
            _, printed, _ = run(['sim'], b''.join([*lines[:place], stop, *lines[place:], behind]))
            if not printed.endswith(end):
                wrong += [f'{stop.decode().strip()} before line {place + 1}:', printed[-len(end):].decode()]
    return wrong


def commands_differ(name):
    """What is wrong with the commands of a case."""
    folder()
    wrong, rows = [], []
    for line in read(f'{name}.commands').splitlines(True):
        if line.startswith(b'$ '):
            rows.append([line[2:].decode().strip(), b'', None, 0])
        elif line.startswith(b'!'):
            rows[-1][2] = (rows[-1][2] or []) + [line[2:].rstrip(b'\n')] * (line != b'!\n')
        elif line.startswith(b'= '):
            rows[-1][3] = int(line[2:])
        else:
            rows[-1][1] += line
    for command, output, errors, should in rows:
        program, *words = shlex.split(command)
        assert program == 'recall', command
        status, printed, told = run(words)
        told = told.splitlines()
        if status != should:
            wrong.append(f'{command}: status {status}, and not {should}')
        wrong += compare(command, output, printed)
        if errors is not None and (
                len(told) < len(errors) or bool(told) != bool(errors)
                or any(not is_so.startswith(line) for line, is_so in zip(errors, told))):
            wrong += [f'{command}: the error stream has', *(it.decode(errors='replace') for it in told)]
    return wrong if rows else ['it has no command']


KINDS = {'in': script_differs, 'stops': stops_differ, 'commands': commands_differ}
ran = failed = 0
for file in sorted(os.listdir(cases)):
    name, _, kind = file.rpartition('.')
    if kind not in KINDS or wanted and name not in wanted:
        continue
    folder()
    try:
        wrong = KINDS[kind](name)
    except (OSError, ValueError, subprocess.SubprocessError, StopIteration, IndexError, AssertionError) as error:
        wrong = [f'it cannot be run: {error!r}']
    ran, failed = ran + 1, failed + bool(wrong)
    print(file, 'FAILED' if wrong else 'ok', flush=True)
    for line in wrong:
        print(' ', line, file=sys.stderr)
print(f'{ran - failed} cases passed, {failed} failed')
sys.exit(1 if failed or not ran else 0)
PYTHON
