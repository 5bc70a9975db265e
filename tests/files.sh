#!/usr/bin/env bash
# Drives the program on a folder of files as a person would: each command, most refusals and faults (docs/PROOFS.md lists the
# others; another version, a bad row and a locked file only where `sqlite3` is installed), and stops by `kill -9` at moments
# of a capture and a start, after each of which an audit finds the record before or after it, and of a copy, after each of
# which the folder answers as before, and the copy is none or answers as the folder.
# Run by hand, and by the gate on the program that it built. RECALL names another program, STOPS how often it is
# stopped. It ends with status 0 where all is as it should be, and takes less than two minutes.
set -u
here=$(cd "$(dirname "$0")/.." && pwd) || exit 2
recall=${RECALL:-}
if [ -z "$recall" ]; then
    "$here/recall" --help >/dev/null || exit 2
    recall="$here/crates/recall_cli/out/recall_cli"
fi
chain="$here/examples/dairy"
tank=urn:epc:id:sgtin:9521321.000011.tank-7
work=$(mktemp -d) || exit 2
trap 'rm -rf "$work"' EXIT
cd "$work" || exit 2
failed=0
stops=${STOPS:-50}

. "$here/tests/means.sh"

# wants STATUS OUTPUT ERRORS WORD..: the program ends so on these words; sentences stand behind refusals and faults
wants() {
    local status=$1 output=$2 errors ended
    errors=$(explained "$4" "$2" "$3")
    shift 3
    "$recall" "$@" >out 2>err </dev/null
    ended=$?
    if [ "$ended" != "$status" ] || [ "$(cat out)" != "$output" ] || [ "$(without_notes err)" != "$errors" ]; then
        printf 'recall %s\n  status %s, wanted %s\n' "$*" "$ended" "$status" >&2
        diff <(printf '%s\n' "$output") out >&2
        diff <(printf '%s\n' "$errors") err >&2
        failed=1
    fi
}

# faults NAME FILE WORD..: the program ends on these words with this fault of this file, behind which stands what is known
faults() {
    local name=$1 file=$2
    shift 2
    wants 3 '' "$(printf 'fault %s\nfile %s' "$name" "$file")" "$@"
}

# fresh FOLDER: the chain, with the dairy's and the plant's documents captured
fresh() {
    rm -rf "$1"
    mkdir "$1"
    wants 0 '' '' init "$1" "$chain/sites"
    wants 0 'captured 2 known 0 skipped 0' '' capture "$1" dairy "$chain/dairy.json"
    wants 0 'captured 6 known 0 skipped 1' '' capture "$1" plant "$chain/plant.json"
}

echo "commands"
faults Read 'none/sites: no such file or folder' audit none
faults Read 'none: no such file or folder' init chain none
fresh chain
wants 1 "$(printf 'refused Exists %s\n' dairy plant shop-1 shop-2)" '' init chain "$chain/sites"
wants 0 'captured 2 known 0 skipped 0' '' capture chain shop-1 "$chain/shop-1.json"
wants 0 'captured 2 known 0 skipped 0' '' capture chain shop-2 "$chain/shop-2.json"
wants 0 'captured 0 known 2 skipped 0' '' capture chain shop-2 "$chain/shop-2.json"
wants 0 '' '' audit chain
wants 0 'recall dairy#1 new 1 messages 1 open' '' start chain dairy "$tank"
wants 0 'open dairy#1' '' audit chain
wants 0 "$(printf '%s\n' 'recall dairy#1 root sgtin 09521321000117 tank-7 open' 'pair dairy sgtin 09521321000117 tank-7' \
    '  1 dairy sgtin 09521321000117 tank-7' 'total 1 outside 0')" '' report chain 'dairy#1'
wants 0 'recall plant#1 new 4 messages 2 open' '' start chain plant "$tank"

echo "refusals"
wants 1 'refused UnknownRecall' '' report chain 'dairy#9'
[ "$(cat err)" = '`recall status` lists the recalls that sites began' ] || { echo "the sentence: $(cat err)" >&2; failed=1; }
wants 1 'refused BadLine' '' report chain dairy
wants 1 'refused NoSite farm' '' report chain 'farm#1'
wants 1 'refused NoSite farm' '' capture chain farm none
wants 1 'refused NoSite farm' '' start chain farm "$tank"
wants 1 'refused BadEpc' '' start chain dairy 'a b'
wants 1 'refused BadKey' '' start chain dairy --key 'sgtin 09521321000118 tank-7'
wants 1 'refused BadScan CheckDigit' '' start chain dairy --scan '(01)09521321000118(21)tank-7'
grep -q 'check digit' err || { echo "the sentence: $(cat err)" >&2; failed=1; }
wants 1 'refused BadScan NoSerial' '' start chain dairy --scan 0109521321000117 --dry-run
wants 1 'refused BadScan NoElements' '' trace chain dairy --scan "$tank"
wants 1 'refused UnknownItem' '' start chain dairy '(01)09521321000117(21)tank-7'
grep -q -e '--scan' err || { echo "the sentence: $(cat err)" >&2; failed=1; }
wants 1 'refused UnknownItem' '' start chain dairy x
! grep -q '^note:' err || { echo "nobody knows it: $(cat err)" >&2; failed=1; }
wants 1 'refused UnknownItem' '' start chain dairy tank-7 --dry-run
[ "$(grep '^note:' err)" = 'note: dairy has sgtin 09521321000117 tank-7, which ends in `tank-7`' ] || { echo "what ends so: $(cat err)" >&2; failed=1; }
wants 1 'refused UnknownItem' '' trace chain dairy https://id.gs1.org/01/09521321000179/21/1
[ "$(grep '^note:' err)" = "$(printf 'note: %s knows sgtin 09521321000179 1\n' plant shop-1 shop-2)" ] || { echo "who knows it: $(cat err)" >&2; failed=1; }
echo '{' >bad.json
wants 1 'refused Doc Syntax event 0 field document' '' capture chain dairy bad.json
printf 'site A a\nreach A x\n' >bad.sites
wants 1 "$(printf 'refused %s\n' BadLine NoWorld)" '' init other bad.sites
printf 'site A a\nsite B b\nsite A c\n' >bad.sites
wants 1 'refused BadSite NameTaken' '' init other bad.sites
mkdir listed
cp "$chain/sites" listed
wants 1 'refused Exists sites' '' init listed "$chain/sites"
sed 's/T05:40/T05:41/' "$chain/dairy.json" >other.json
wants 1 'refused IdTaken event 1' '' capture chain dairy other.json
printf '{"type":"ObjectEvent","eventTime":"2024-05-02T08:00:00Z","eventTimeZoneOffset":"+00:00","action":"OBSERVE","epcList":["%s"],"destinationList":[{"type":"location","destination":"outside"}]}' "$tank" >led.json
wants 0 'captured 1 known 0 skipped 0' '' capture chain plant led.json
sed 's,"outside","https://id.gs1.org/414/9521321000032",' led.json >blocked.json
wants 1 'refused Blocked plant#1 sgtin 09521321000117 tank-7 event 1' '' capture chain plant blocked.json

echo "several documents"
again="captured 0 known 2 skipped 0 $chain/shop-2.json"
wants 1 "$(printf '%s\n' "$again" 'refused Doc Syntax event 0 field document bad.json' "$again" 'documents 3 captured 0 known 4 skipped 0 refused 1')" \
    '' capture chain shop-2 "$chain/shop-2.json" bad.json "$chain/shop-2.json"
wants 3 "$again" "$(printf 'fault Read\nfile none: no such file or folder')" capture chain shop-2 "$chain/shop-2.json" none bad.json
# A file's name makes no line of its own, and turns no text around; other names are as they are.
mkdir inbox
for name in $'1\ncaptured 9 known 0 skipped 0 bank.json' $'2\e[2K\xc2\x9b\xe2\x80\xae\\' '3 Fähre'; do
    cp "$chain/shop-2.json" "inbox/$name"
done
wants 0 "$(printf '%s\n' 'captured 0 known 2 skipped 0 inbox/1\u{a}captured 9 known 0 skipped 0 bank.json' \
    'captured 0 known 2 skipped 0 inbox/2\u{1b}[2K\u{9b}\u{202e}\\' 'captured 0 known 2 skipped 0 inbox/3 Fähre' \
    'documents 3 captured 0 known 6 skipped 0 refused 0')" '' capture chain shop-2 inbox/*
cp bad.json $'inbox/4\n{'
wants 1 "$(printf '%s\n' 'fault Syntax event 0 field document inbox/4\u{a}{' 'total events 0 faults 1 warnings 0')" '' lint "$chain/sites" $'inbox/4\n{'
wants 1 "$(printf '{"event":0,"fault":"Syntax","field":"document","file":"inbox/4\\n{"}\n{"total":{"events":0,"faults":1,"warnings":0}}')" '' \
    lint "$chain/sites" $'inbox/4\n{' --json
wants 1 'refused NoSite farm' '' capture chain farm none none
printf '%s\n \r\n{' "$(tr -d '\n' <"$chain/shop-2.json")" >lines
wants 1 "$(printf '%s\n' 'captured 0 known 2 skipped 0 lines:1' 'refused Doc Syntax event 0 field document lines:3' \
    'documents 2 captured 0 known 2 skipped 0 refused 1')" '' capture chain shop-2 --lines lines
"$recall" capture chain shop-2 - --lines <lines >out 2>err
[ $? = 1 ] && [ "$(cat out)" = "$("$recall" capture chain shop-2 lines --lines 2>/dev/null | sed 's/ lines:/ -:/')" ] || { echo "a pipe: $(cat out err)" >&2; failed=1; }
"$recall" capture chain shop-2 - <"$chain/shop-2.json" >out 2>err
[ $? = 0 ] && [ "$(cat out)$(without_notes err)" = 'captured 0 known 2 skipped 0' ] || { echo "a document in a pipe: $(cat out err)" >&2; failed=1; }

wants 1 "$(printf '%s\n' "captured 0 known 1 skipped 0 $chain/shop-2.json event 1" "captured 0 known 1 skipped 0 $chain/shop-2.json event 2" \
    'refused Doc Syntax event 0 field document bad.json' 'documents 3 captured 0 known 2 skipped 0 refused 1')" '' \
    capture chain shop-2 "$chain/shop-2.json" bad.json --each
"$recall" capture chain shop-2 lines --lines --each >out 2>err
[ $? = 2 ] && grep -q "'--lines' and '--each'" err || { echo "lines and events: $(cat out err)" >&2; failed=1; }

echo "several items"
cp -r chain starts
wants 1 "$(printf '%s\n' "recall plant#2 new 4 messages 2 open $tank" 'refused BadEpc a b' 'refused UnknownItem x' 'items 3 started 1 refused 2')" \
    '' start starts plant "$tank" 'a b' x
printf '%s \r\n \nx' "$tank" >epcs
wants 1 "$(printf '%s\n' 'recall plant#3 new 4 messages 2 open epcs:1' 'refused UnknownItem epcs:3' 'items 2 started 1 refused 1')" '' start starts plant --from epcs
wants 3 '' "$(printf 'fault Read\nfile none: no such file or folder')" start starts plant --from none epcs
wants 1 'refused NoSite farm' '' start starts farm "$tank" "$tank"

echo "faults"
faults Read 'none: no such file or folder' capture chain dairy none
# damaged: the chain again, to be spoilt
damaged() {
    rm -rf damaged
    cp -r chain damaged
}
damaged
rm damaged/shop-2.db damaged/shop-2.db-wal
faults Read 'damaged/shop-2.db: no such file or folder' audit damaged
[ -e damaged/shop-2.db ] && { echo "a missing file was made" >&2; failed=1; }
damaged
rm damaged/plant.db-wal
printf 'this is no database, and never was one' >damaged/plant.db
faults NotAStore 'damaged/plant.db: no sqlite database' audit damaged
damaged
rm damaged/plant.db-wal
: >damaged/plant.db
faults NotAStore 'damaged/plant.db: the table store is missing' audit damaged
damaged
truncate -s 8192 damaged/plant.db
faults Device 'damaged/plant.db: damaged' audit damaged
# a bit of each page, at another place in each
for ((page = 0; page * 4096 < $(stat -c %s chain/plant.db); page++)); do
    damaged
    at=$((page * 4096 + (page * 1597 + 24) % 4096))
    byte=$(od -An -tu1 -j "$at" -N 1 damaged/plant.db)
    printf "\\x$(printf %x $((byte ^ 1 << page % 8)))" | dd of=damaged/plant.db bs=1 seek="$at" conv=notrunc status=none
    faults Device 'damaged/plant.db: damaged' audit damaged
done
touch no-folder
faults Read 'no-folder/sites: Not a directory (os error 20)' audit no-folder
if command -v sqlite3 >/dev/null; then
    damaged
    changes damaged/plant.db 'update store set version = 3' || failed=1
    faults Version 'damaged/plant.db: version 3' audit damaged
    damaged
    changes damaged/plant.db 'update store set version = 1' || failed=1
    faults NotAStore 'damaged/plant.db: the table store has no row of the version of the tables' audit damaged
    damaged
    changes damaged/plant.db "insert into packed values (1, 0, 'x')" || failed=1
    faults BadRow 'damaged/plant.db: row 1 of the table packed' audit damaged
    damaged
    changes damaged/plant.db "update part set text = cast(x'ff' as text) where event = 1; update store set version = 7" || failed=1
    faults Version 'damaged/plant.db: version 7' audit damaged
    changes damaged/plant.db "update store set version = 2" || failed=1
    faults BadRow 'damaged/plant.db: row 1 of the table part' audit damaged
    damaged
    changes damaged/plant.db 'update event set kind = 9 where no = 2' || failed=1
    faults BadRow 'damaged/plant.db: row 2 of the table event' audit damaged
    damaged
    printf 'begin exclusive;\n.shell touch held; sleep 2\n' | sqlite3 damaged/plant.db &
    while [ ! -e held ]; do sleep 0.01; done
    faults Device 'damaged/plant.db: in use by another program' audit damaged
    wait
    wants 0 "$("$recall" audit chain)" '' audit damaged
fi
damaged
(trap '' XFSZ; ulimit -f 1; "$recall" start damaged dairy "$tank" >out 2>err)
[ $? = 3 ] && [ "$(cat err)" = "$(explained start '' "$(printf 'fault Device\nfile damaged/dairy.db: disk I/O error')")" ] || { echo "a full disk: $(cat out err)" >&2; failed=1; }
wants 0 "$("$recall" audit chain)" '' audit damaged
damaged
cp chain/plant.db damaged/dairy.db
cp chain/plant.db-wal damaged/dairy.db-wal
faults OtherSite 'damaged/dairy.db: the file of plant' audit damaged
damaged
echo 'site late z' >>damaged/sites
faults OtherSites damaged/dairy.db start damaged dairy "$tank"
echo 'reach dairy x' >>damaged/sites
faults BadSites damaged/sites audit damaged
damaged
wants 0 "$(printf '%s ended\n' 'dairy#1' 'plant#1')" '' run damaged
wants 0 "$(printf '%s\n' 'equal dairy#1 pairs 8' 'equal plant#1 pairs 7')" '' audit damaged
if command -v sqlite3 >/dev/null; then
    # the mark of an end is taken away, so that no message of the recall is left anywhere
    cp -r damaged stuck
    changes stuck/dairy.db 'update recall set ended = 0 where number = 1' || failed=1
    wants 0 "$(printf '%s\n' 'open dairy#1' 'equal plant#1 pairs 7')" 'stuck dairy#1 at dairy' audit stuck
    wants 0 "$(printf '%s\n' 'dairy#1 open' 'plant#1 ended')" 'a further `recall run` goes on with the recalls that are open' run stuck
fi
# files that were copied one after another, behind the ends of these recalls, and with what came since
cp -r damaged late
"$recall" start damaged plant "$tank" >out 2>err && "$recall" run damaged >out 2>err || failed=1
rm late/shop-1.db* && cp damaged/shop-1.db* late
wants 4 'misfit 2 shop-2' '' audit late
wants 0 "$(printf '%s\n' 'equal dairy#1 pairs 8' 'equal plant#1 pairs 7')" '' audit late --ended
# and a file from before
damaged
wants 0 "$(printf '%s ended\n' 'dairy#1' 'plant#1')" '' run damaged
cp chain/shop-1.db chain/shop-1.db-wal damaged
wants 4 'misfit 2 shop-1' '' audit damaged
wants 4 'misfit 2 shop-1' '' run damaged
wants 4 "$(printf 'differs %s shop-1 sgtin 09521321000179 1 missing\n' 'dairy#1' 'plant#1')" '' audit damaged --ended
for words in 'status damaged' 'status damaged dairy#1' 'report damaged dairy#1' "trace damaged dairy $tank" "trace damaged dairy $tank --back"; do
    "$recall" $words >out 2>err </dev/null
    [ $? = 0 ] && grep -q '^note: misfit 2 shop-1: ' err || { echo "no misfit is told beside $words: $(cat err)" >&2; failed=1; }
done
damaged
"$recall" report damaged 'dairy#1' >/dev/full 2>err
[ $? = 3 ] && [ "$(cat err)" = "$(explained report '' 'fault Write')" ] || { echo "a full output: $(cat err)" >&2; failed=1; }
"$recall" --help >/dev/full 2>err
[ $? = 3 ] && [ "$(cat err)" = 'fault Write' ] || { echo "a full output of the help: $(cat err)" >&2; failed=1; }
echo 'reach A x' | "$recall" sim >/dev/full 2>err
[ $? = 3 ] && [ "$(cat err)" = 'fault Write' ] || { echo "a full output of a script: $(cat err)" >&2; failed=1; }
"$recall" sim >out 2>err <damaged
[ $? = 3 ] && [ ! -s out ] && [ "$(cat err)" = 'fault Read' ] || { echo "a script that isn't read: $(cat out err)" >&2; failed=1; }
"$recall" capture chain shop-2 "$chain/shop-2.json" "$chain/shop-2.json" >/dev/full 2>err
[ $? = 3 ] && grep -qx 'fault Write' err || { echo "a full output of several documents: $(cat err)" >&2; failed=1; }

echo "other things in the place of a file"
echo precious >victim
for thing in 'ln -s ../victim' 'ln -s nobody' mkfifo mkdir; do
    rm -rf ways && mkdir ways
    $thing ways/sites.new
    faults Write 'ways/sites.new: not a regular file' init ways "$chain/sites"
    [ ! -e ways/sites ] && [ "$(cat victim)" = precious ] && [ -e ways/sites.new -o -L ways/sites.new ] || { echo "a list was written through $thing" >&2; failed=1; }
done
rm -rf ways && mkdir ways && ln victim ways/sites.new
wants 0 '' '' init ways "$chain/sites"
[ "$(cat victim)" = precious ] && [ ! -e ways/sites.new ] && cmp ways/sites "$chain/sites" || { echo "a list was written over another name of a file" >&2; failed=1; }
damaged
rm damaged/sites && mkfifo damaged/sites
faults Read 'damaged/sites: not a regular file' audit damaged
rm damaged/sites && ln -s /dev/zero damaged/sites
faults Read 'damaged/sites: not a regular file' start damaged dairy "$tank"
rm damaged/sites && head -c 1048577 /dev/zero | tr '\0' '#' >damaged/sites
faults Read 'damaged/sites: longer than 1 MiB' audit damaged
truncate -s 1048576 damaged/sites
rm -rf ways && mkdir ways
wants 1 'refused NoWorld' '' init ways damaged/sites
# A document, or a line, has at most 64 MiB, or so many bytes as is asked for; one that is longer isn't read.
truncate -s 67108865 long.json
faults Read 'long.json: longer than 64 MiB' capture chain dairy long.json
truncate -s 1073741825 long.json
faults Read 'long.json: longer than 1024 MiB' capture chain dairy long.json --max-bytes 1073741824
rm long.json
document=$chain/shop-2.json
size=$(stat -c %s "$document")
faults Read "$document: longer than $((size - 1)) bytes" capture chain shop-2 "$document" --max-bytes $((size - 1))
faults Read "$document: longer than $((size - 1)) bytes" capture chain shop-2 "$document" bad.json --max-bytes $((size - 1))
faults Read "$document: longer than $((size - 1)) bytes" lint "$chain/sites" "$document" --max-bytes $((size - 1))
wants 0 'captured 0 known 2 skipped 0' '' capture chain shop-2 "$document" --max-bytes "$size"
"$recall" capture chain shop-2 - --max-bytes $((size - 1)) <"$document" >out 2>err
[ $? = 3 ] && [ ! -s out ] && [ "$(sed -n 2p err)" = "file -: longer than $((size - 1)) bytes" ] || { echo "a pipe that is too long: $(cat out err)" >&2; failed=1; }
printf '{}\n{"a":1}\n{}\n' >some
wants 3 'refused Doc NotDocument event 0 field document some:1' "$(printf 'fault Read\nfile some: longer than 6 bytes')" \
    capture chain shop-2 --lines some --max-bytes 6
printf 'x\n%s\n' "$tank" >some
wants 3 'refused UnknownItem some:1' "$(printf 'fault Read\nfile some: longer than %s bytes' $((${#tank} - 1)))" \
    start starts plant --from some --max-bytes $((${#tank} - 1))
for wrong in 0 1073741825 1k; do
    "$recall" capture chain shop-2 "$document" --max-bytes "$wrong" >out 2>err
    [ $? = 2 ] && [ ! -s out ] || { echo "--max-bytes $wrong: $(cat out err)" >&2; failed=1; }
done
mkfifo pipe
cat "$chain/shop-2.json" >pipe &
wants 0 'captured 0 known 2 skipped 0' '' capture chain shop-2 pipe
wait

echo "copies"
# told FOLDER: what it answers
told() {
    local words
    for words in 'status @' 'audit @' 'report @ plant#1 --events' 'coverage @'; do
        "$recall" ${words/@/$1} 2>&1
        echo "status $?"
    done
}
# alike FOLDER OTHER: both answer alike
alike() {
    [ "$(told "$1")" = "$(told "$2")" ] || { echo "$2 answers otherwise than $1" >&2; failed=1; }
}
mkdir friday
wants 0 '' '' copy chain friday
cmp chain/sites friday/sites || failed=1
alike chain friday
rm -rf friday && mkdir friday
faults Read 'none/sites: no such file or folder' copy none friday
damaged
rm damaged/shop-2.db damaged/shop-2.db-wal
faults Read 'damaged/shop-2.db: no such file or folder' copy damaged friday
damaged
truncate -s 8192 damaged/plant.db
faults Device 'damaged/plant.db: damaged' copy damaged friday
[ -z "$(ls friday)" ] || { echo "a copy was made of a damaged folder: $(ls friday)" >&2; failed=1; }
faults Device 'nowhere/dairy.db: no such file or folder' copy chain nowhere
# what is there is refused, and nothing is changed
rm -rf held && cp -r chain held
for to in chain chain/. "$work/chain"; do
    wants 1 "$(printf 'refused Exists %s\n' dairy plant shop-1 shop-2)" '' copy chain "$to"
done
wants 1 'refused Exists sites' '' copy chain listed
[ "$(ls listed)" = sites ] || { echo "a copy was made beside a list: $(ls listed)" >&2; failed=1; }
: >friday/plant.db
wants 1 'refused Exists plant' '' copy chain friday
[ "$(ls friday)" = plant.db ] && [ ! -s friday/plant.db ] || { echo "a copy was made over a file: $(ls -l friday)" >&2; failed=1; }
diff -r chain held || { echo "a refused copy changed the folder" >&2; failed=1; }
# a folder in use is none to copy, but it is waited for
if command -v sqlite3 >/dev/null; then
    rm -rf friday held && mkdir friday
    damaged
    printf 'begin exclusive;\n.shell touch held; sleep 2\n' | sqlite3 damaged/shop-1.db &
    while [ ! -e held ]; do sleep 0.01; done
    faults Device 'damaged/shop-1.db: in use by another program' copy damaged friday
    [ -z "$(ls friday)" ] || { echo "a copy was made of a folder in use: $(ls friday)" >&2; failed=1; }
    wants 0 '' '' copy damaged friday --wait 60
    wait
    alike chain friday
fi

echo "files of the first version"
data=$here/tests/data/first-version
# first: a folder of files of the first version
first() {
    rm -rf first
    mkdir first
    cp "$data"/sites "$data"/*.db "$data"/*.db-wal first
    chmod -R u+w first
}
first
wants 0 "$(cat "$data/audit.txt")" '' audit first
wants 0 "$(cat "$data/report-A1.txt")" '' report first 'A#1'
wants 0 "$(cat "$data/report-B1.txt")" '' report first 'B#1'
wants 0 "$(cat "$data/audit.txt")" '' audit first
first
wants 0 "$(cat "$data/report-A1.txt")" '' report first 'A#1'
first
wants 0 'captured 1 known 0 skipped 0' '' capture first B "$data/b.json"
first
wants 0 "A#1 ended
B#1 ended" '' run first
if command -v sqlite3 >/dev/null; then
    [ "$(sqlite3 first/A.db 'select version from store')" = 2 ] || { echo "a file wasn't migrated" >&2; failed=1; }
    [ "$(sqlite3 first/A.db 'select count(*) from pack, packed')" = 0 ] || { echo "a migrated file has packs" >&2; failed=1; }
    # a copy is of the newest version, and its pages have sums
    first
    rm -rf newest && mkdir newest
    wants 0 '' '' copy first newest
    wants 0 "$(cat "$data/audit.txt")" '' audit newest
    wants 0 "$(cat "$data/report-A1.txt")" '' report newest 'A#1'
    [ "$(sqlite3 newest/A.db 'select version from store')" = 2 ] || { echo "a copy is of an older version" >&2; failed=1; }
    [ "$(od -An -tu1 -j 20 -N 1 newest/A.db | tr -d ' ')" = 8 ] || { echo "a copy has no sums" >&2; failed=1; }
    # a bad row leaves a file as it is
    first
    changes first/A.db 'update event set kind = 9 where no = 1' || failed=1
    cp first/A.db bad.db
    faults BadRow 'first/A.db: row 1 of the table event' audit first
    cmp first/A.db bad.db || failed=1
    # its version with the other's tables is nobody's
    first
    changes first/C.db 'update store set version = 2' || failed=1
    faults NotAStore 'first/C.db: the table store has no row of the version of the tables' audit first
fi
first
chmod a-w first first/*
if ! touch first/A.db 2>/dev/null; then
    faults Device 'first/A.db: no permission' audit first
fi
chmod -R u+w first

echo "$stops stops of a copy, of a capture, of a start, and of a capture of many documents"
rm -rf before stopped
mkdir before
wants 0 '' '' init before "$chain/sites"
cp -r before stopped
begun=$(date +%s%N)
wants 0 'captured 6 known 0 skipped 1' '' capture stopped plant "$chain/plant.json"
spent=$((($(date +%s%N) - begun) / 1000))

# stop MOMENT WORD..: the program on these words, stopped after so many microseconds
stop() {
    local moment=$1
    shift
    "$recall" "$@" >/dev/null 2>&1 &
    sleep "$(printf '%d.%06d' $((moment / 1000000)) $((moment % 1000000)))"
    kill -9 $! 2>/dev/null
    wait $! 2>/dev/null
}

rm -rf copied && mkdir copied
answers=$(told chain)
begun=$(date +%s%N)
wants 0 '' '' copy chain copied
copying=$((($(date +%s%N) - begun) / 1000))
none=0
for ((n = 0; n < stops; n++)); do
    rm -rf copied && mkdir copied
    stop $((copying * n / stops)) copy chain copied
    [ "$(told chain)" = "$answers" ] || { echo "a stopped copy changed the folder" >&2; failed=1; }
    if [ -e copied/sites ]; then
        alike chain copied
    else
        none=$((none + 1))
        faults Read 'copied/sites: no such file or folder' audit copied
    fi
done
echo "  $none of the copies left none"

old=0
for ((n = 0; n < stops; n++)); do
    rm -rf stopped && cp -r before stopped
    stop $((spent * n / stops)) capture stopped plant "$chain/plant.json"
    wants 0 '' '' audit stopped
    case "$("$recall" capture stopped plant "$chain/plant.json" 2>/dev/null)" in
    'captured 6 known 0 skipped 1') old=$((old + 1)) ;;
    'captured 0 known 6 skipped 1') ;;
    *) echo "a capture was kept in part" >&2; failed=1 ;;
    esac
done
echo "  $old of the captures left the record before"
wants 0 'captured 6 known 0 skipped 1' '' capture before plant "$chain/plant.json"
old=0
for ((n = 0; n < stops; n++)); do
    rm -rf stopped && cp -r before stopped
    stop $((spent * n / stops)) start stopped plant "$tank"
    "$recall" audit stopped >out 2>err
    case "$?:$(cat out)$(cat err)" in
    '0:note: the records of the sites are consistent, and no recall was begun') old=$((old + 1)) ;;
    '0:open plant#1') ;;
    *) echo "audit after a stop: $(cat out err)" >&2; failed=1 ;;
    esac
done
echo "  $old of the starts left the record before"
# of many documents, those that were answered are kept, and a stopped one is kept whole or not at all
for ((n = 1; n <= 200; n++)); do
    printf '{"type":"ObjectEvent","eventID":"e%d","eventTime":"2024-05-02T08:00:00Z","eventTimeZoneOffset":"+00:00","action":"OBSERVE","epcList":["i%d"]}\n' "$n" "$n"
done >many
rm -rf stopped && cp -r before stopped
begun=$(date +%s%N)
"$recall" capture stopped dairy --lines many >out 2>err || failed=1
spent=$((($(date +%s%N) - begun) / 1000))
some=0
for ((n = 0; n < stops; n++)); do
    rm -rf stopped && cp -r before stopped
    : >answered
    "$recall" capture stopped dairy --lines many >answered 2>/dev/null &
    sleep "$(printf '%d.%06d' $((spent * n / stops / 1000000)) $((spent * n / stops % 1000000)))"
    kill -9 $! 2>/dev/null
    wait $! 2>/dev/null
    lines=$(grep -c many: answered)
    [ "$lines" -gt 0 ] && [ "$lines" -lt 200 ] && some=$((some + 1))
    "$recall" capture stopped dairy --lines many >out 2>err
    known=$(sed -n 's/^documents 200 captured [0-9]* known \([0-9]*\) skipped 0 refused 0$/\1/p' out)
    [ "${known:--1}" -ge "$lines" ] && [ "$known" -le $((lines + 1)) ] || { echo "$lines documents were answered, and ${known:-none} kept" >&2; failed=1; }
done
echo "  $some of the captures of many documents stopped among them"
[ "$failed" = 0 ] && echo "all as it should be"
exit "$failed"
