#!/usr/bin/env bash
# Brings about the faults that the program tells by a line `file <path>: <what is known>`, and compares these lines and the sentence behind them: another
# program has the file open, no permission, no space, a folder or a link in its place, a file that is cut, tables and rows
# that are no site's; and stops of sites in a run, which it tells so, too. Those that take `strace` or another user are passed over where there is none, with a word.
# Run by hand, and by the gate on the program that it built. RECALL names another program. It ends with status 0 where all
# is as it should be, and takes some seconds.
set -u
here=$(cd "$(dirname "$0")/.." && pwd) || exit 2
recall=${RECALL:-}
if [ -z "$recall" ]; then
    "$here/recall" --help >/dev/null || exit 2
    recall="$here/crates/recall_cli/out/recall_cli"
fi
chain="$here/examples/dairy"
tank=urn:epc:id:sgtin:9521321.000011.tank-7
work=$(mktemp -d) || exit 2
trap 'rm -rf "$work"' EXIT
# Another user runs it, too.
chmod 755 "$work" && cp "$recall" "$work/program" && cd "$work" || exit 2
recall="$work/program"
failed=0

# complain WORD..: tells what is wrong
complain() {
    printf '%s\n' "$*" >&2
    failed=1
}

. "$here/tests/means.sh"

# ends STATUS ERRORS PROGRAM WORD..: the program ends so, and prints nothing
ends() {
    local status=$1 errors=$2 ended
    shift 2
    "$@" >out 2>err </dev/null
    ended=$?
    [ "$ended" = "$status" ] && [ ! -s out ] && [ "$(cat err)" = "$errors" ] ||
        complain "$(printf '%s\n  status %s, wanted %s; printed\n%s\n  wanted\n%s' "$*" "$ended" "$status" "$(cat out err)" "$errors")"
}

# faults NAME FILE PROGRAM WORD..: it ends with this fault of this file, and what is known of it
faults() {
    local name=$1 file=$2
    shift 2
    ends 3 "$(explained '' '' "$(printf 'fault %s\nfile %s' "$name" "$file")")" "$@"
}

# must WORD..: the program does that
must() {
    "$recall" "$@" >out 2>err </dev/null || complain "recall $*: $(cat out err)"
}

# fresh: the folder `at`, to be spoilt; its logs are empty
fresh() {
    rm -rf at
    cp -r made at
}

mkdir made
must init made "$chain/sites"
for site in dairy plant; do
    must capture made "$site" "$chain/$site.json"
done

echo "the folder and its list"
for command in audit run; do
    "$recall" "$command" '' >out 2>err
    [ $? = 2 ] && [ ! -s out ] && [ "$(head -c 6 err)" = 'error:' ] || complain "an empty word for the folder: $(cat out err)"
done
faults Read 'none/sites: no such file or folder' "$recall" audit none
faults Device 'none/dairy.db: no such file or folder' "$recall" init none "$chain/sites"
faults Read 'none: no such file or folder' "$recall" init at none
faults Read 'no\u{a}fault Write/sites: no such file or folder' "$recall" audit $'no\nfault Write'
faults Read 'Fähre 7/sites: no such file or folder' "$recall" audit 'Fähre 7'
fresh
echo 'site late z' >>at/sites
faults OtherSites at/dairy.db "$recall" audit at
echo 'reach dairy x' >>at/sites
faults BadSites at/sites "$recall" audit at

echo "files that can't be read or opened"
fresh
faults Read 'none: no such file or folder' "$recall" capture at dairy none
faults Read 'at: not a regular file' "$recall" capture at dairy at
rm at/plant.db
faults Read 'at/plant.db: no such file or folder' "$recall" audit at
mkdir at/plant.db
faults Device 'at/plant.db: not a regular file' "$recall" audit at
fresh
ln at/plant.db other
faults Device 'at/plant.db: a hard link' "$recall" audit at
rm other
fresh
rm at/plant.db-wal
ln -s nowhere at/plant.db-wal
faults Device 'at/plant.db-wal: not a regular file' "$recall" audit at
fresh
printf '\331' >at/plant.db-journal
faults Device 'at/plant.db: sqlite left a journal of it, which sqlite3 plays back' "$recall" audit at

echo "a file that another program has open"
fresh
mkfifo feed
"$recall" capture at plant - --lines <feed >fed 2>&1 &
exec 9>feed
tr -d '\n' <"$chain/plant.json" >&9
echo >&9
for ((n = 0; n < 1000; n++)); do
    [ -s fed ] && break
    sleep 0.01
done
[ -s fed ] || complain "no line is written while the feed is open"
faults Device 'at/plant.db: in use by another program' "$recall" audit at
faults Device 'at/plant.db: in use by another program' "$recall" start at plant "$tank"
faults Device 'at/plant.db: in use by another program' "$recall" audit at --wait 1
# The file is free a second after this command begins to wait for it.
"$recall" audit at --wait 60 >waited 2>&1 9>&- &
waiting=$!
sleep 1
exec 9>&-
wait "$waiting" || complain "an audit that waits: $(cat waited)"
wait
[ "$(without_notes fed | tail -1)" = 'documents 1 captured 0 known 6 skipped 1 refused 0' ] || complain "a capture of lines: $(cat fed)"
must audit at

echo "files that are no site's"
fresh
rm at/plant.db-wal
printf 'this is no database, and never was one' >at/plant.db
faults NotAStore 'at/plant.db: no sqlite database' "$recall" audit at
fresh
rm at/plant.db-wal
: >at/plant.db
faults NotAStore 'at/plant.db: the table store is missing' "$recall" audit at
fresh
cp made/plant.db made/plant.db-wal at
mv at/plant.db at/dairy.db
mv at/plant.db-wal at/dairy.db-wal
faults OtherSite 'at/dairy.db: the file of plant' "$recall" audit at
fresh
truncate -s 8192 at/plant.db
faults Device 'at/plant.db: damaged' "$recall" audit at

# spoilt NAME WHAT SQL: what is told of the plant's file once the text has changed it
spoilt() {
    fresh
    changes at/plant.db "$3" || complain "SQLite: $3"
    faults "$1" "at/plant.db: $2" "$recall" audit at
}
spoilt Version 'version 7' 'update store set version = 7'
spoilt BadRow 'row 2 of the table event' 'update event set kind = 9 where no = 2'
# An address with a gap before it, texts that are no key, no site's name and no UTF-8, a gap between parts, and a pack of a
# shipment. Rows count by their keys.
spoilt BadRow 'row 2 of the table address' 'update address set place = 1 where site = 1'
spoilt BadRow 'row 10 of the table part' "update part set text = 'b' where event = 6 and role = 0"
spoilt BadRow 'row 9 of the table part' "update part set text = 'C' where event = 5 and role = 1"
spoilt BadRow 'row 11 of the table part' 'update part set place = 1 where event = 6 and role = 2'
spoilt BadRow 'row 11 of the table part' "update part set text = cast(x'6fff' as text) where event = 6 and role = 2"
spoilt BadRow 'row 2 of the table pack' 'insert into pack (event, action) values (6, 1)'
spoilt NotAStore "t isn't of a site" 'create table t (a)'
spoilt NotAStore "i isn't of a site" 'create index i on event (id)'
spoilt NotAStore "v isn't of a site" 'create view v as select no from event'
# Names of strangers are one line, and move no cursor.
spoilt NotAStore 't\u{a}fault Read\u{1b}[2J\\\u{202e}\u{9b} isn'"'t of a site" "create table \"t"$'\nfault Read\e[2J\\\xe2\x80\xae\xc2\x9b'"\" (a)"
spoilt OtherSite 'the file of a\u{a}b' "update site set name = 'a' || char(10) || 'b' where no = (select me from store)"
spoilt NotAStore 'the table seen is missing' 'drop table seen'
spoilt NotAStore 'the table store has no row of the version of the tables' 'delete from store'
spoilt NotAStore 'a table is declared otherwise' 'drop table seen; create table seen (sender integer) strict'
spoilt NotAStore "a row breaks a rule of its table, or a declaration isn't read" 'delete from event where no = 1'

echo "what this user may not do"
if [ "$(id -u)" != 0 ]; then
    user=(env)
elif setpriv --reuid=65534 --regid=65534 --clear-groups "$recall" --help >/dev/null 2>&1; then
    user=(setpriv --reuid=65534 --regid=65534 --clear-groups)
else
    user=()
    echo "  there is no setpriv: nothing is forbidden"
fi
if [ "${#user[@]}" -gt 0 ]; then
    fresh
    chmod 000 at/dairy.db
    faults Device 'at/dairy.db: no permission' "${user[@]}" "$recall" audit at
    chmod 600 at/dairy.db
    chmod 000 at/sites
    faults Read 'at/sites: no permission' "${user[@]}" "$recall" audit at
    mkdir closed
    chmod 555 closed
    faults Device 'closed/dairy.db: no permission' "${user[@]}" "$recall" init closed "$chain/sites"
fi

echo "calls that fail"
# breaks CALL ERROR WORD..: the program on these words, each such call of which fails so
breaks() {
    local call=$1 error=$2
    shift 2
    strace -f -qq -o trace -e "trace=$call" -e "inject=$call:error=$error" "$recall" "$@"
}
if command -v strace >/dev/null; then
    fresh
    faults Device 'at/plant.db: no space left' breaks pwrite64 ENOSPC start at plant "$tank"
    must audit at
    faults Device 'at/plant.db: disk I/O error' breaks pwrite64 EIO start at plant "$tank"
    must audit at
    fresh
    faults Device 'at/plant.db: no space left' breaks pwrite64 EDQUOT capture at plant "$chain/shop-1.json"
    mkdir new
    faults Write 'new/sites: Input/output error (os error 5)' breaks link EIO init new "$chain/sites"
else
    echo "  strace isn't installed: no call fails"
fi

# The sites stop that have something to keep, as often as they try: the shops. Once there is room, a run ends the recall.
echo "a run on a disk that is full"
if unshare -rm true 2>/dev/null; then
    fresh
    must start at plant "$tank"
    mkdir full
    unshare -rm sh -c 'mount -t tmpfs -o size=512k none full && cp -r at full/at || exit 9
        dd if=/dev/zero of=full/fill bs=4k 2>/dev/null
        "$1" run full/at --turns 20
        ended=$?
        rm full/fill
        "$1" run full/at >then 2>&1
        exit "$ended"' sh "$recall" >out 2>err </dev/null
    [ "$?:$(cat out)" = '0:plant#1 open' ] || complain "a run on a full disk: $(cat out err)"
    {
        for site in shop-1 shop-2; do
            printf 'site %s stopped n times: Device\nfile full/at/%s.db: no space left\n' "$site" "$site"
        done
        echo 'a further `recall run` goes on with the recalls that are open'
    } >wanted
    sed -E 's/ stopped [0-9]+ times: / stopped n times: /' err | cmp -s wanted - || complain "a run on a full disk: $(cat err)"
    [ "$(cat then)" = 'plant#1 ended' ] || complain "a run once there is room: $(cat then)"
else
    echo "  no disk can be mounted: none is full"
fi
[ "$failed" = 0 ] && echo "all as it should be"
exit "$failed"
