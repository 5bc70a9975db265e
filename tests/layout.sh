#!/usr/bin/env bash
# Tells in seconds which files `rt fmt` would change. `rt ci` refuses them, but only once it comes to their crate, which can
# take an hour. It ends with status 0 where there is none.
set -u
here=$(cd "$(dirname "$0")/.." && pwd) || exit 2
work=$(mktemp -d) || exit 2
trap 'rm -rf "$work"' EXIT
mkdir "$work/.git"
cp "$here/crates.txt" "$here/HANDLES" "$work" && tar -C "$here" --exclude=out -cf - crates | tar -C "$work" -xf - || exit 2
for crate in "$work"/crates/*; do
    (cd "$crate" && rt fmt) >"$work/log" 2>&1 || {
        cat "$work/log" >&2
        exit 2
    }
    sed -n "s|^rt: formatted |crates/${crate##*/}/|p" "$work/log"
done >"$work/changed"
[ -s "$work/changed" ] || {
    echo "all files are as rt fmt lays them out"
    exit 0
}
echo "rt fmt would change:" >&2
cat "$work/changed" >&2
exit 1
