#!/usr/bin/env bash
# Makes the man page and the completions anew of the built program's help, and compares them with those of share/; then
# bash reads its completions and completes some words. Where `man` is installed, it reads the page without a complaint.
# RECALL names another program than the one of this repository. Status 1 where one differs. It takes a second.
set -u
here=$(cd "$(dirname "$0")/.." && pwd) || exit 2
recall=${RECALL:-}
if [ -z "$recall" ]; then
    "$here/recall" --help >/dev/null || exit 2
    recall="$here/crates/recall_cli/out/recall_cli"
fi
recall=$(realpath -e -- "$recall") && [ -x "$recall" ] || { echo "there is no program ${RECALL:-}" >&2; exit 2; }
work=$(mktemp -d) || exit 2
trap 'rm -rf "$work"' EXIT
failed=0
complain() {
    printf '%s\n' "$*" >&2
    failed=1
}

version=$("$recall" --version 2>&1)
case "$version" in
'recall '[0-9]*.[0-9]*.[0-9]*' (site files of version '[0-9]*', written for rattle-kit-'*' logic '*')') ;;
*) complain "the version: $version" ;;
esac
# The logic that it names is that of the toolchain which is here.
if command -v rt >/dev/null; then
    here_now=$(rt version)
    [ "${version##* logic }" = "${here_now##* logic })" ] || complain "written for another logic: $version, and $here_now is here"
fi
"$recall" -V >"$work/version" 2>&1 && [ "$(cat "$work/version")" = "$("$recall" --version)" ] || complain "-V isn't --version"

python3 "$here/share/pages.py" "$recall" "$work/share" || exit 1
for page in man/man1/recall.1 bash-completion/completions/recall zsh/site-functions/_recall fish/vendor_completions.d/recall.fish; do
    diff -u --label share/$page --label 'of the help' "$here/share/$page" "$work/share/$page" >&2 ||
        complain "share/$page isn't what share/pages.py makes of the help"
done

# completes WORD..: what bash offers for the last of these words
completes() {
    bash -c '. "$0"; COMP_WORDS=("$@"); COMP_CWORD=$(($# - 1)); _recall; printf "%s " "${COMPREPLY[@]}"' \
        "$here/share/bash-completion/completions/recall" "$@"
}
[ "$(completes recall au)" = 'audit ' ] || complain "bash completes au as $(completes recall au)"
[ "$(completes recall report --br)" = '--brief ' ] || complain "bash completes --br as $(completes recall report --br)"
[ "$(completes recall run --t)" = '--turns ' ] || complain "bash completes --t as $(completes recall run --t)"

if command -v man >/dev/null; then
    LC_ALL=C.UTF-8 MANROFFSEQ= man --warnings -E UTF-8 -l "$here/share/man/man1/recall.1" >"$work/page" 2>"$work/warnings"
    [ -s "$work/page" ] && [ ! -s "$work/warnings" ] || complain "man complains: $(cat "$work/warnings")"
fi
[ "$failed" = 0 ] && echo "all as it should be"
exit "$failed"
