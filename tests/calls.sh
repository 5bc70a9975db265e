#!/usr/bin/env bash
# Kills the program as it makes its k-th call that changes a file, and fails that call once, with EIO and with ENOSPC, for
# each k of `init`, `capture`, `start`, of a `run` of two sites, and of a `report` on files of the first version; after each
# the folder has the record before or the one after, whole, and each file the tables of its version. It needs `strace`, and without it tries nothing and says so.
# Run by hand, and by the gate on the program that it built. RECALL names another program, STEP tries each STEP-th call alone,
# WORKERS is how many cases are tried at once (one for each processor).
# It ends with status 0 where all is as it should be.
set -u
here=$(cd "$(dirname "$0")/.." && pwd) || exit 2
recall=${RECALL:-}
if [ -z "$recall" ]; then
    "$here/recall" --help >/dev/null || exit 2
    recall="$here/crates/recall_cli/out/recall_cli"
fi
command -v strace >/dev/null || {
    echo "strace isn't installed: no call is stopped or failed"
    exit 0
}
chain="$here/examples/dairy"
first="$here/tests/data/first-version"
tank=urn:epc:id:sgtin:9521321.000011.tank-7
calls=write,pwrite64,fsync,fdatasync,ftruncate,link,linkat,rename,renameat,renameat2,unlink,unlinkat
step=${STEP:-1}
workers=${WORKERS:-$(nproc)}
work=$(mktemp -d) || exit 2
trap 'rm -rf "$work"' EXIT
cd "$work" || exit 2
failed=0
cases=0

# complain WORD..: tells what is wrong
complain() {
    printf '%s\n' "$*" >&2
    failed=1
}

# must WORD..: the program does that
must() {
    "$recall" "$@" >out 2>err </dev/null || complain "recall $*: $(cat out err)"
}

# made WORD..: how often the thread that makes it most often makes each of the calls, as lines `call count`
made() {
    strace -f -qq -o trace -e "trace=$calls" "$recall" "$@" >out 2>err </dev/null || complain "under strace: $(cat err)"
    sed -n 's/^\([0-9]*\) *\([a-z0-9]*\)(.*/\1 \2/p' trace | sort | uniq -c |
        awk '$1 > most[$3] { most[$3] = $1 } END { for (call in most) print call, most[call] }'
}

# stopped CALL K HOW WORD..: the program on these words, whose K-th call of this kind does that
stopped() {
    local call=$1 k=$2 how=$3
    shift 3
    # The shell's word that a process was killed isn't wanted.
    { strace -f -qq -o trace -e "trace=$call" -e "inject=$call:$how:when=$k" "$recall" "$@" >out 2>err </dev/null; } 2>/dev/null
}

# share WORKER FOLDER CHECK WORD..: tries each of the cases that is this worker's, in a folder of its own
share() {
    local worker=$1 from=$2 check=$3 call most k how place=0
    shift 3
    mkdir -p "$work/worker$worker" && cd "$work/worker$worker" || exit 2
    failed=0
    cases=0
    while read -r call most; do
        for ((k = 1; k <= most; k += step)); do
            for how in signal=KILL error=EIO error=ENOSPC; do
                place=$((place + 1))
                [ $((place % workers)) = "$worker" ] || continue
                rm -rf at && cp -r "$work/$from" at
                stopped "$call" "$k" "$how" "${@/#@/at}"
                cases=$((cases + 1))
                "$check" "$call $k $how of recall $*"
            done
        done
    done <"$work/counts"
    echo "$cases" >"$work/cases$worker"
    exit "$failed"
}

# tries FOLDER CHECK WORD..: from this folder, each call of the program on these words is stopped and failed; the words name
# the folder as @, and CHECK looks at what is left in `at`
tries() {
    local from=$1 worker pid pids=() words=("${@:3}")
    rm -rf at && cp -r "$from" at
    made "${words[@]/#@/at}" >counts
    for ((worker = 0; worker < workers; worker++)); do
        rm -f "cases$worker"
        share "$worker" "$@" &
        pids+=("$!")
    done
    for pid in "${pids[@]}"; do
        wait "$pid" || failed=1
    done
    for ((worker = 0; worker < workers; worker++)); do
        cases=$((cases + $(cat "cases$worker" || echo 0)))
    done
}

# the list is there and whole, or it isn't there
looks_made() {
    if [ -e at/sites ]; then
        cmp -s at/sites "$chain/sites" || complain "a list that is cut, after $1"
        "$recall" audit at >out 2>err || complain "audit after $1: $(cat out err)"
    fi
}

looks_captured() {
    "$recall" audit at >out 2>err || complain "audit after $1: $(cat out err)"
    case "$("$recall" capture at plant "$chain/plant.json" 2>&1 | grep -v '^note: ')" in
    'captured 6 known 0 skipped 1' | 'captured 0 known 6 skipped 1') ;;
    *) complain "a capture was kept in part, after $1" ;;
    esac
}

looks_started() {
    "$recall" audit at >out 2>err || complain "audit after $1: $(cat out err)"
    case "$(cat out)" in
    '' | 'open plant#1') ;;
    *) complain "a start was kept in part, after $1: $(cat out)" ;;
    esac
}

looks_run() {
    local tries
    "$recall" audit at >out 2>err || complain "audit after $1: $(cat out err)"
    for ((tries = 0; tries < 20; tries++)); do
        [ "$("$recall" run at 2>&1)" = 'A#1 ended' ] && break
    done
    "$recall" audit at >out 2>err
    [ "$?:$(cat out)" = '0:equal A#1 pairs 2' ] || complain "audit at the end, after $1: $(cat out err)"
}

# each file has the tables of its version, and they say what they said
looks_migrated() {
    local file
    if command -v sqlite3 >/dev/null; then
        for file in at/*.db; do
            rm -f look.db*
            cp "$file" look.db
            [ ! -e "$file-wal" ] || cp "$file-wal" look.db-wal
            case "$(sqlite3 look.db "select version, (select count(*) from sqlite_schema where type = 'table') from store" 2>&1)" in
            '1|10' | '2|12') ;;
            *) complain "$file is of neither version, after $1" ;;
            esac
        done
    fi
    "$recall" audit at >out 2>err || complain "audit after $1: $(cat out err)"
    cmp -s out "$first/audit.txt" || complain "audit after $1: $(cat out)"
    "$recall" report at 'A#1' >out 2>err || complain "report after $1: $(cat out err)"
    cmp -s out "$first/report-A1.txt" || complain "a report is another, after $1"
}

mkdir empty
tries empty looks_made init @ "$chain/sites"
echo "  $cases cases of init"
mkdir made
must init made "$chain/sites"
tries made looks_captured capture @ plant "$chain/plant.json"
echo "  $cases cases with those of capture"
cp -r made captured
must capture captured plant "$chain/plant.json"
tries captured looks_started start @ plant "$tank"
echo "  $cases cases with those of start"
mkdir two
printf 'site A a\nsite B b\n' >list
must init two list
printf '{"type":"ObjectEvent","eventTime":"2024-05-01T08:00:00Z","eventTimeZoneOffset":"+00:00","action":"OBSERVE","epcList":["x"],"destinationList":[{"type":"location","destination":"b"}]}' >shipped
must capture two A shipped
must start two A x
tries two looks_run run @ --turns 300
echo "  $cases cases with those of run"
mkdir first
cp "$first"/sites "$first"/*.db "$first"/*.db-wal first
chmod -R u+w first
tries first looks_migrated report @ 'A#1'
echo "  $cases cases with those of a report that makes files of the first version those of the second"

# lacks CALLS ERROR WORDS: a file system that refuses these calls is named so
lacks() {
    rm -rf at && cp -r made at
    strace -f -qq -o trace -e "trace=$1" -e "inject=$1:error=$2" "$recall" audit at >out 2>err </dev/null
    [ $? = 3 ] && [ "$(sed -n 2p err)" = "file at/dairy.db: $3" ] || complain "a file system without that: $(cat out err)"
    cases=$((cases + 1))
}
lacks fsync EINVAL "its folder can't be synced"
lacks fcntl,flock ENOLCK "its file system has no locks"
[ "$failed" = 0 ] && echo "all as it should be"
exit "$failed"
