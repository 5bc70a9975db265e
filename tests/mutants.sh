#!/usr/bin/env bash
# Tries the mutants that would cost the gate too much at each run: tests/mutants/CRATE/NAME.edit, written as the edits of
# crates/CRATE/must-fail are. The prover has to refuse each, on a copy of the tree.
#   tests/mutants.sh [CRATE..]   tries those of the named crates, or all. The libraries below are built first, but for those
#                                that `rt lib` or `rt check` left in crates/*/out. That takes minutes to hours
#   tests/mutants.sh --apply     tells in a second whether each edit can be applied, those of the gate too; proves nothing
# It prints a line for each edit, and last `mutants: N refused, M not`. Status 1 where one isn't refused or can't be applied.
set -u
here=$(cd "$(dirname "$0")/.." && pwd) || exit 2
cd "$here" || exit 2

# Each `old:` text stands exactly once in its file, once the pairs before it are applied.
all_apply() {
    python3 - <<'PYTHON'
import glob
import sys

edits = sorted(glob.glob('tests/mutants/*/*.edit') + glob.glob('crates/*/must-fail/*.edit'))
faults = 0


def complain(edit, why):
    global faults
    faults += 1
    print(f'{edit}: {why}', file=sys.stderr)


for edit in edits:
    words = edit.split('/')
    crate = words[2] if words[0] == 'tests' else words[1]
    file, old, pairs, texts = None, None, 0, {}
    for line in open(edit, encoding='utf-8').read().split('\n'):
        name, _, rest = line.partition(': ')
        if name == 'file':
            file = f'crates/{crate}/{rest.strip()}'
            try:
                texts.setdefault(file, open(file, encoding='utf-8').read())
            except OSError:
                complain(edit, f'there is no {file}')
                break
        elif name == 'old':
            old = rest
        elif line.startswith('new:'):
            if not file or not old or texts[file].count(old) != 1:
                times = texts[file].count(old) if file and old else 'no'
                complain(edit, f'its text stands {times} times in {file}, and not once: {old}')
                break
            texts[file] = texts[file].replace(old, line[4:].removeprefix(' '))
            old, pairs = None, pairs + 1
    else:
        if old or not pairs:
            complain(edit, 'it has no pair of lines `old:` and `new:`, or an `old:` alone')
if not edits:
    complain('tests/mutants', 'no edit is there')
if not faults:
    print(f'{len(edits)} edits can be applied')
sys.exit(1 if faults else 0)
PYTHON
}

# below CRATE: the crates that it stands on, lowest first
below() {
    awk -v crate="$1" '
        /^#/ { next }
        { name = $1; sub(/:$/, "", name); split($0, halves, ":"); stands_on[name] = halves[2]; order[++count] = name }
        END {
            needed[crate] = 1
            for (at = count; at; at--) if (order[at] in needed) {
                many = split(stands_on[order[at]], names, " ")
                for (one = 1; one <= many; one++) needed[names[one]] = 1
            }
            for (at = 1; at <= count; at++) if (order[at] in needed && order[at] != crate) print order[at]
        }' crates.txt
}

case ${1:-} in
--apply)
    all_apply
    exit
    ;;
esac
all_apply || exit 1
crates=("$@")
[ $# -gt 0 ] || crates=(tests/mutants/*/)
crates=("${crates[@]%/}")
crates=("${crates[@]##*/}")
for crate in "${crates[@]}"; do
    [ -d "tests/mutants/$crate" ] || {
        echo "tests/mutants has no folder $crate" >&2
        exit 2
    }
done
work=$(mktemp -d) || exit 2
trap 'rm -rf "$work"' EXIT
trap 'exit 143' TERM INT HUP
mkdir "$work/.git"
cp crates.txt HANDLES "$work" && tar --exclude=out --exclude=must-fail -cf - crates | tar -C "$work" -xf - || exit 2
refused=0
not=0

# build CRATE: builds what it stands on, in the copy
build() {
    local lower
    for lower in $(below "$1"); do
        if [ -f "crates/$lower/out/rlib/stamp" ] && [ ! -d "$work/crates/$lower/out" ]; then
            mkdir "$work/crates/$lower/out" && cp -r "crates/$lower/out/rlib" "$work/crates/$lower/out" || return
        fi
        (cd "$work/crates/$lower" && rt lib ${RT_JOBS:+--jobs "$RT_JOBS"}) >"$work/log" 2>&1 || {
            cat "$work/log" >&2
            return 1
        }
    done
}

for crate in "${crates[@]}"; do
    edits=(tests/mutants/"$crate"/*.edit)
    mkdir "$work/crates/$crate/must-fail" && cp "${edits[@]}" "$work/crates/$crate/must-fail" || exit 2
    : >"$work/said"
    if build "$crate"; then
        (cd "$work" && rt must-fail "$crate") </dev/null >"$work/said" 2>&1
        grep -E '^rt: must-fail ' "$work/said" | cut -d' ' -f3-
        grep -vE '^rt: must-fail ' "$work/said" >&2
    else
        echo "what $crate stands on isn't proved, so its edits weren't tried" >&2
    fi
    well=$(grep -cE '^rt: must-fail [^ ]*: refused, as it must be' "$work/said")
    refused=$((refused + well)) not=$((not + ${#edits[@]} - well))
done
echo "mutants: $refused refused, $not not"
[ "$refused" -gt 0 ] && [ "$not" = 0 ]
