#!/usr/bin/env bash
# Runs each command on files with --json, as a program would that reads it: each line of the standard output and of the error
# stream is read by python3 -m json.tool and held to docs/recall.schema.json (where python has jsonschema), statuses are those
# of the same command without --json, and what a report says is the same in both forms. Faults and refusals of each kind that
# a folder can have are brought about.
# Run by hand, and by the gate on the program that it built. RECALL names another program. It takes some seconds, and ends
# with status 0 where all is as it should be.
set -u
here=$(cd "$(dirname "$0")/.." && pwd) || exit 2
recall=${RECALL:-}
if [ -z "$recall" ]; then
    "$here/recall" --help >/dev/null || exit 2
    recall="$here/crates/recall_cli/out/recall_cli"
fi
command -v python3 >/dev/null || {
    echo "python3 isn't installed: no JSON is read"
    exit 0
}
recall=$(realpath -e -- "$recall") || exit 2
chain="$here/examples/dairy"
tank=urn:epc:id:sgtin:9521321.000011.tank-7
work=$(mktemp -d) || exit 2
trap 'rm -rf "$work"' EXIT
cd "$work" || exit 2
failed=0
ran=0

. "$here/tests/means.sh"

# complain WORD..: tells what is wrong
complain() {
    printf '%s\n' "$*" >&2
    failed=1
}

# is_json FILE: each line of it is JSON; all of them are kept for the schema
is_json() {
    local line
    while IFS= read -r line; do
        printf '%s' "$line" | python3 -m json.tool >/dev/null 2>&1 || return 1
        printf '%s\n' "$line" >>all
    done <"$1"
}

# tells STATUS OUTPUT ERRORS WORD..: with --json behind its name the command ends so, and prints these lines
tells() {
    local status=$1 output=$2 errors=$3 ended
    shift 3
    "$recall" "$1" --json "${@:2}" >out 2>err </dev/null
    ended=$?
    ran=$((ran + 1))
    [ "$ended" = "$status" ] && [ "$(cat out)" = "$output" ] && [ "$(cat err)" = "$errors" ] ||
        complain "$(printf '%s\n  status %s, wanted %s; printed\n%s\n  wanted\n%s\n%s' "$*" "$ended" "$status" "$(cat out err)" "$output" "$errors")"
    is_json out && is_json err || complain "no JSON: $(cat out err)"
}

# fault NAME FILE CAUSE KIND [MEMBERS]: the line of a fault of a file, with what its kind of cause has besides
fault() {
    printf '{"cause":"%s","fault":"%s","file":"%s","kind":"%s"%s}' "$3" "$1" "$2" "$4" "${5:+,$5}"
}

mkdir made
printf 'site A\nreach A x\nsite A\n' >bad
tells 1 '{"line":2,"refused":"BadLine"}
{"kind":"NameTaken","line":3,"refused":"BadSite"}
{"refused":"NoWorld"}' '' init made bad
tells 0 '{"created":["dairy","plant","shop-1","shop-2"]}' '' init made "$chain/sites"
tells 1 '{"name":"dairy","refused":"Exists"}
{"name":"plant","refused":"Exists"}
{"name":"shop-1","refused":"Exists"}
{"name":"shop-2","refused":"Exists"}' '' init made "$chain/sites"
mkdir copied
tells 0 '{"created":["dairy","plant","shop-1","shop-2"]}' '' copy made copied
rm copied/plant.db
tells 1 '{"name":"dairy","refused":"Exists"}
{"name":"shop-1","refused":"Exists"}
{"name":"shop-2","refused":"Exists"}' '' copy made copied

tells 1 '{"refused":"NoSite","site":"Dairy"}' '' capture made Dairy none
tells 3 '' "$(fault Read none 'no such file or folder' Missing)" capture made dairy none
printf '{"type":"ObjectEvent","quantityList":[{}]}' >quantities
tells 1 '{"event":1,"field":"quantityList","kind":"Quantities","refused":"Doc"}' '' capture made dairy quantities
"$recall" capture --json made dairy "$chain/dairy.json" >out 2>err || complain "a capture: $(cat out err)"
is_json out && is_json err || complain "no JSON: $(cat out err)"
printf '{"type":"ObjectEvent","eventTime":"2024-05-01T08:00:00Z","eventTimeZoneOffset":"+00:00","action":"OBSERVE","epcList":["x"],"bizStep":"shipping"}' >aimless
tells 0 '{"captured":1,"known":0,"skipped":0}' '{"note":"1 event of bizStep shipping has no destination: nothing is traced past it"}
{"note":"1 event has no eventID: captured again, it counts again"}' capture made dairy aimless
mkdir spelled
printf 'site plant https://id.gs1.org/414/9521321000025\nsite shop-1 https://id.gs1.org/414/9521321000032\n' >list
tells 0 '{"created":["plant","shop-1"]}' '' init spelled list
printf '{"type":"ObjectEvent","eventID":"e","eventTime":"2024-05-01T08:00:00Z","eventTimeZoneOffset":"+00:00","action":"OBSERVE","epcList":["x"],"destinationList":[{"type":"location","destination":"urn:epc:id:sgln:9521321.00003.0"}]}' >spelling
tells 0 '{"captured":1,"known":0,"skipped":0}' '{"note":"1 destination is no traced site: what went there counts as outside"}
{"note":"no traced site: urn:epc:id:sgln:9521321.00003.0"}' capture spelled plant spelling
tells 0 '{"outside":[{"destination":"urn:epc:id:sgln:9521321.00003.0","item":"uri x","site":"plant"}],"pairs":[{"item":"uri x","site":"plant","trail":[{"item":"uri x","site":"plant"}]}],"root":{"item":"uri x","site":"plant"},"trace":"forward"}' '{"note":"the destination urn:epc:id:sgln:9521321.00003.0 may be shop-1, whose address https://id.gs1.org/414/9521321000032 names the same place"}' trace spelled plant x
tells 1 '{"event":1,"fault":"Quantities","field":"quantityList","file":"quantities"}
{"event":1,"fault":"Missing","field":"eventTime","file":"quantities"}
{"event":1,"fault":"Missing","field":"eventTimeZoneOffset","file":"quantities"}
{"event":1,"fault":"Missing","field":"action","file":"quantities"}
{"event":1,"field":"destinationList","file":"aimless","warning":"ShipsNowhere"}
{"event":1,"file":"aimless","warning":"NoEventID"}
{"total":{"events":2,"faults":4,"warnings":2}}' '' lint "$chain/sites" quantities aimless
tells 1 '{"captured":1,"file":"aimless","known":0,"skipped":0}
{"event":1,"field":"quantityList","file":"quantities","kind":"Quantities","refused":"Doc"}
{"captured":1,"documents":2,"known":0,"refused":1,"skipped":0}' '{"note":"1 event of bizStep shipping has no destination: nothing is traced past it"}
{"note":"1 event has no eventID: captured again, it counts again"}' capture made dairy aimless quantities
tells 1 '{"event":1,"field":"quantityList","file":"quantities event 1","kind":"Quantities","refused":"Doc"}
{"captured":0,"documents":1,"known":0,"refused":1,"skipped":0}' '' capture made dairy quantities --each
for site in plant shop-1 shop-2; do
    "$recall" capture --json made "$site" "$chain/$site.json" >out 2>err || complain "a capture: $(cat out err)"
    is_json out && is_json err || complain "no JSON: $(cat out err)"
done

tells 1 '{"refused":"BadEpc"}' '' start made plant 'a b'
tells 1 '{"refused":"BadKey"}' '' start made plant 'a b' --key
tells 1 '{"kind":"CheckDigit","refused":"BadScan"}' '' start made plant '(01)09521321000118(21)tank-7' --scan
tells 1 '{"refused":"UnknownItem"}' '{"note":"dairy knows uri x"}' start made shop-1 x
tells 0 '{"messages":2,"new":4,"would":"recall"}' '{"note":"nothing was begun; this is of the site alone, and `recall trace` tells what a recall would find at all sites"}' start made plant "$tank" --dry-run
for words in "" --brief --back "--back --brief" --events "--back --brief --events"; do
    # shellcheck disable=SC2086
    "$recall" trace --json made plant "$tank" $words >out 2>err || complain "a trace: $(cat out err)"
    is_json out && is_json err || complain "no JSON: $(cat out err)"
done
tells 1 '{"refused":"UnknownItem"}' '{"note":"dairy knows uri x"}' trace made shop-1 x
tells 0 '{"events":2,"item":"sgtin 09521321000117 tank-7","site":"plant"}' '' items made plant tank
tells 0 '' '' status made
"$recall" start --json made plant "$tank" >out 2>err || complain "a start: $(cat out err)"
is_json out && is_json err || complain "no JSON: $(cat out err)"
[ "$(sed -E 's/"(messages|new)":[0-9]+/"\1":n/g' out)" = '{"ended":false,"messages":n,"new":n,"recall":"plant#1"}' ] || complain "a start: $(cat out)"
tells 0 '{"audit":"open","recall":"plant#1"}' '' audit made
open='{"ended":false,"quarantined":4,"recall":"plant#1","root":{"item":"sgtin 09521321000117 tank-7","site":"plant"},"waiting":2}'
goes_on='{"note":"`recall run` goes on with what is open"}'
tells 0 "$open" "$goes_on" status made
tells 5 "$open" "$goes_on" status made --exit-code
"$recall" status --json made 'plant#1' >out 2>err || complain "how a recall stands: $(cat out err)"
is_json out && is_json err || complain "no JSON: $(cat out err)"
tells 1 '{"refused":"UnknownRecall"}' '' status made 'plant#9'
cp -r made before
for ((n = 0; n < 20; n++)); do
    "$recall" run --json made >out 2>err || complain "a run: $(cat out err)"
    is_json out && is_json err || complain "no JSON: $(cat out err)"
    [ "$(cat out)" = '{"ended":true,"recall":"plant#1"}' ] && break
done
[ "$(cat out)" = '{"ended":true,"recall":"plant#1"}' ] || complain "runs: $(cat out)"
pairs=$("$recall" audit made | sed -n 's/^equal plant#1 pairs //p')
tells 0 "{\"audit\":\"equal\",\"pairs\":$pairs,\"recall\":\"plant#1\"}" '' audit made
tells 1 '{"refused":"UnknownRecall"}' '' report made 'plant#9'
tells 1 '{"refused":"BadLine"}' '' report made plant
tells 5 '{"items":0,"lots":[],"packed":[],"unlinked":null,"unseen":[{"from":"plant","item":"sscc 095213210000000421","site":"shop-1"}],"used":[]}' '' gaps made --exit-code
tells 0 '{"left":[],"missed":[],"recall":"plant#1"}' '' gaps made 'plant#1' --exit-code
tells 1 '{"refused":"UnknownRecall"}' '' gaps made 'plant#9'

echo "a report says the same in both forms"
"$recall" report made 'plant#1' >words || complain "a report"
"$recall" report --json made 'plant#1' >out 2>err || complain "a report: $(cat out err)"
is_json out || complain "no JSON: $(cat out)"
python3 - >again <<'PYTHON'
import json

r = json.load(open("out"))
print("recall", r["recall"], "root", r["root"]["item"], "ended" if r["ended"] else "open")
for pair in r["pairs"]:
    print("pair", pair["site"], pair["item"])
    for place, step in enumerate(pair["trail"] or []):
        print(" ", place + 1, step["site"], step["item"])
for x in r["outside"]:
    print("outside", x["site"], x["item"], x["destination"])
print("total", len(r["pairs"]), "outside", len(r["outside"]))
PYTHON
cmp -s words again || complain "a report in two forms: $(diff words again)"

echo "faults"
tells 3 '' "$(fault Read none/sites 'no such file or folder' Missing)" audit none
tells 3 '' "$(fault Device none/dairy.db 'no such file or folder' Missing)" init none "$chain/sites"
cp -r made at
echo 'site late z' >>at/sites
tells 3 '' '{"fault":"OtherSites","file":"at/dairy.db"}' audit at
echo 'reach dairy x' >>at/sites
tells 3 '' '{"fault":"BadSites","file":"at/sites"}' audit at
rm -rf at && cp -r made at && rm at/plant.db-wal && echo 'no database' >at/plant.db
tells 3 '' "$(fault NotAStore at/plant.db 'no sqlite database' NoDatabase)" report at 'plant#1'
rm -rf at && cp -r made at && mv at/plant.db at/dairy.db && mv at/plant.db-wal at/dairy.db-wal
tells 3 '' "$(fault OtherSite at/dairy.db 'the file of plant' Site '"site":"plant"')" run at
rm -rf at && cp -r made at && cp before/shop-1.db before/shop-1.db-wal at
tells 4 '{"misfit":2,"site":"shop-1"}' '' audit at
tells 4 '{"misfit":2,"site":"shop-1"}' '' run at
if command -v sqlite3 >/dev/null; then
    rm -rf at && cp -r made at && changes at/plant.db 'update store set version = 7'
    tells 3 '' "$(fault Version at/plant.db 'version 7' Version '"version":7')" audit at
    rm -rf at && cp -r made at && changes at/plant.db 'update event set kind = 9 where no = 2'
    tells 3 '' "$(fault BadRow at/plant.db 'row 2 of the table event' Row '"row":2,"table":"event"')" audit at
else
    echo "  sqlite3 isn't installed: no row is changed"
fi
"$recall" audit --json made >/dev/full 2>err
[ "$?:$(cat err)" = '3:{"fault":"Write"}' ] || complain "a full output: $(cat err)"
"$recall" audit made --jsn >out 2>err
[ "$?" = 2 ] || complain "a misspelled option: $(cat out err)"

echo "the schema"
if python3 -c 'import jsonschema' 2>/dev/null; then
    python3 - "$here/docs/recall.schema.json" <<'PYTHON' || complain "a line that the schema doesn't have"
import json
import sys

import jsonschema

schema = json.load(open(sys.argv[1]))
jsonschema.Draft202012Validator.check_schema(schema)
validator = jsonschema.Draft202012Validator(schema)
bad = 0
for line in open("all"):
    value = json.loads(line)
    # The members are in the order of their names, and nothing else is between them.
    if json.dumps(value, ensure_ascii=False, separators=(",", ":"), sort_keys=True) != line.rstrip("\n"):
        bad += 1
        print("not in order:", line, file=sys.stderr)
    for error in validator.iter_errors(value):
        bad += 1
        print(line, error.message, file=sys.stderr)
for value in [{"captured": 1}, {"refused": "Other"}, {"fault": "Read", "note": ""}, {"ended": True}]:
    if validator.is_valid(value):
        bad += 1
        print("the schema takes", value, file=sys.stderr)
sys.exit(bad > 0)
PYTHON
else
    echo "  python has no jsonschema: no line is held to it"
fi
[ "$failed" = 0 ] && echo "$ran commands print the JSON that they should"
exit "$failed"
