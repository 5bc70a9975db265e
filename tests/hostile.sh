#!/usr/bin/env bash
# The campaign: the built program under kills, failing and short calls, refused memory, cuts of the power, damage, other files,
# limits, and programs at once; and random scripts and folders beside a second program, tests/hostile/model.py, which was written
# from the documents alone. A line a case, the counts at the end; a difference is made smaller before it is told.
#
#     tests/hostile.sh                     the whole, of which each case is run: several hours
#     tests/hostile.sh --thin 8            an eighth of the long parts
#     tests/hostile.sh --minute            a minute of it, which .ci/run runs
#     tests/hostile.sh --only PART..       parts of it: tests/hostile/campaign.py lists them
#
# --seed N chooses the random cases; it is printed, and the same one gives the same cases in the same order. --thin 4 makes a
# fourth of the cases, --shard 2/4 the second of four shares of those of a long part, so that four programs make them all side
# by side. --seconds N ends after so long, --quiet tells those alone that depart. RECALL names another program. It ends with
# status 0 where nothing departs from what is promised. Without python3 nothing is run; without strace or a C compiler parts are
# left out, and it says so.
set -u
here=$(cd "$(dirname "$0")/.." && pwd) || exit 2
recall=${RECALL:-}
if [ -z "$recall" ]; then
    "$here/recall" --help >/dev/null || exit 2
    recall="$here/crates/recall_cli/out/recall_cli"
fi
command -v python3 >/dev/null || {
    echo "python3 isn't installed: no hostile case is tried"
    exit 0
}
RECALL=$(realpath -e -- "$recall") || exit 2
export RECALL PYTHONDONTWRITEBYTECODE=1
exec python3 "$here/tests/hostile/campaign.py" "$@"
