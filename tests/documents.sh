#!/usr/bin/env bash
# Runs the examples of README.md and docs/GUIDE.md on the built program, and compares what they print with the documents.
#
# Every block fenced as ```console is run: a line that begins with `$ ` is a command, the lines behind it are what the
# command prints, on the standard output and the error stream together, exactly. The blocks of a document run in order, in
# a new folder that has a copy of examples/, with `recall` on the path. Blocks fenced otherwise aren't run.
# Run by hand, and by the gate on the program that it built. RECALL names another program than the one of this repository. The first difference is printed, with status 1;
# status 2 where there is no program. It takes a few seconds.
set -u
here=$(cd "$(dirname "$0")/.." && pwd) || exit 2
recall=${RECALL:-}
if [ -z "$recall" ]; then
    "$here/recall" --help >/dev/null || exit 2
    recall="$here/crates/recall_cli/out/recall_cli"
fi
recall=$(realpath -e -- "$recall") && [ -x "$recall" ] || { echo "there is no program ${RECALL:-}" >&2; exit 2; }
work=$(mktemp -d) || exit 2
trap 'rm -rf "$work"' EXIT
mkdir "$work/bin" || exit 2
printf '#!/bin/sh\nexec "$RECALL_PROGRAM" "$@"\n' >"$work/bin/recall"
chmod +x "$work/bin/recall"
export RECALL_PROGRAM=$recall PATH="$work/bin:$PATH"
ran=0

# complain DOCUMENT LINE WORD..: a document is wrong at a line
complain() {
    printf '%s:%s: %s\n' "$1" "$2" "${*:3}" >&2
    exit 1
}

# try DOCUMENT LINE COMMAND: the command prints what stands in the file `wanted`
try() {
    (cd "$work/folder" && bash -c "$3") >"$work/printed" 2>&1 </dev/null
    ran=$((ran + 1))
    if ! diff -u --label 'the document' --label 'the program' "$work/wanted" "$work/printed" >"$work/difference"; then
        cat "$work/difference" >&2
        complain "$1" "$2" "another output of: $3"
    fi
}

# check DOCUMENT: runs its examples in a new folder
check() {
    local document=$1 inside=0 number=0 command='' at=0 line
    rm -rf "$work/folder"
    mkdir "$work/folder" && cp -r "$here/examples" "$work/folder" || exit 2
    while IFS= read -r line || [ -n "$line" ]; do
        number=$((number + 1))
        if [ "$inside" = 0 ]; then
            [ "$line" = '```console' ] && inside=$number
        elif [ "$line" = '```' ] || [[ $line == '$ '* ]]; then
            [ -n "$command" ] && try "$document" "$at" "$command"
            command=''
            if [ "$line" = '```' ]; then
                inside=0
            else
                command=${line#'$ '} at=$number
                : >"$work/wanted"
            fi
        elif [ -z "$command" ]; then
            complain "$document" "$number" 'this line stands before the first command of its block'
        elif [ "$line" = '...' ]; then
            complain "$document" "$number" 'the output has to stand in full'
        else
            printf '%s\n' "$line" >>"$work/wanted"
        fi
    done <"$here/$document"
    [ "$inside" = 0 ] || complain "$document" "$inside" 'this block has no end'
}

for document in README.md docs/GUIDE.md; do
    before=$ran
    check "$document"
    [ "$ran" -gt "$before" ] || { echo "$document has no command to run" >&2; exit 1; }
done
echo "$ran commands of the documents print what stands there"
