#!/usr/bin/env bash
# Looks through documents with the built program: each kind of finding, as text and as JSON, what a refused list and files that
# can't be read come to, the standard input, and that `capture` refuses a document with the first fault that is told of it, and
# takes one without a fault. No file is changed.
# Run by hand, and by the gate on the program that it built. RECALL names another program. It takes a second or two, and ends
# with status 0 where all is as it should be.
set -u
here=$(cd "$(dirname "$0")/.." && pwd) || exit 2
recall=${RECALL:-}
if [ -z "$recall" ]; then
    "$here/recall" --help >/dev/null || exit 2
    recall="$here/crates/recall_cli/out/recall_cli"
fi
recall=$(realpath -e -- "$recall") || exit 2
chain="$here/examples/dairy"
work=$(mktemp -d) || exit 2
trap 'rm -rf "$work"' EXIT
cd "$work" || exit 2
failed=0
ran=0

# complain WORD..: tells what is wrong
complain() {
    printf '%s\n' "$*" >&2
    failed=1
}

# ends STATUS OUTPUT ERRORS WORD..: the command ends so, prints these lines, and its error stream begins so
ends() {
    local status=$1 output=$2 errors=$3 ended
    shift 3
    "$recall" "$@" >out 2>err <input
    ended=$?
    ran=$((ran + 1))
    [ "$ended" = "$status" ] && [ "$(cat out)" = "$output" ] && case $(cat err) in "$errors"*) ;; *) false ;; esac ||
        complain "$(printf '%s\n  status %s, wanted %s; printed\n%s\n  wanted\n%s\n%s' "$*" "$ended" "$status" "$(cat out err)" "$output" "$errors")"
}

# event TYPE MEMBERS: an event with a time
event() {
    printf '{"type":"%s","eventTime":"2024-05-01T08:00:00Z","eventTimeZoneOffset":"+00:00",%s}' "$1" "$2"
}

: >input
seen='"action":"OBSERVE"'
to='{"type":"location","destination":"https://id.gs1.org/414/9521321999992"}'
near=https://dairy.example/01/09521321000179/21/1
{
    printf '{"type":"EPCISDocument","epcisBody":{"eventList":['
    event ObjectEvent "$seen,\"eventID\":\"a\",\"epcList\":[\"x\"]"
    printf ,
    event ObjectEvent "$seen,\"eventID\":\"b\",\"epcList\":[\"x\",\"$near\"]"
    printf ,
    event TransformationEvent '"eventID":"c","outputEPCList":["y"]'
    printf ,
    event ObjectEvent "$seen,\"eventID\":\"d\",\"epcList\":[\"x\"],\"destinationList\":[$to]"
    printf ,
    event ObjectEvent "$seen,\"eventID\":\"e\",\"epcList\":[\"x\"],\"bizStep\":\"shipping\""
    printf ,
    event ObjectEvent "$seen,\"epcList\":[\"x\"]"
    printf ',{"type":"TransactionEvent"},{"type":"AssociationEvent"},'
    event ObjectEvent "$seen,\"epcList\":[\"a b\"]"
    printf ,
    event AggregationEvent '"eventID":"f","action":"ADD","parentID":"urn:epc:id:sscc:1.2","childEPCs":["(01)1"]'
    printf ']}}'
} >monday.json
printf '{' >broken.json
printf '{"type":"EPCISDocument"}' >empty.json
cp -r . ../"$(basename "$work")".before

ends 1 "warn NearMiss event 2 field epcList $near monday.json
fault HalfTransformation event 3 field transformationID monday.json
warn Outside event 4 field destinationList https://id.gs1.org/414/9521321999992 monday.json
warn ShipsNowhere event 5 field destinationList monday.json
warn NoEventID event 6 monday.json
warn Skipped event 7 TransactionEvent monday.json
warn Skipped event 8 AssociationEvent monday.json
fault BadEpc event 9 field epcList monday.json
warn NearMiss event 10 field parentID urn:epc:id:sscc:1.2 monday.json
warn NearMiss event 10 field childEPCs (01)1 monday.json
total events 10 faults 2 warnings 8" "" lint "$chain/sites" monday.json
ends 1 "{\"event\":2,\"field\":\"epcList\",\"file\":\"monday.json\",\"text\":\"$near\",\"warning\":\"NearMiss\"}
{\"event\":3,\"fault\":\"HalfTransformation\",\"field\":\"transformationID\",\"file\":\"monday.json\"}
{\"address\":\"https://id.gs1.org/414/9521321999992\",\"event\":4,\"field\":\"destinationList\",\"file\":\"monday.json\",\"warning\":\"Outside\"}
{\"event\":5,\"field\":\"destinationList\",\"file\":\"monday.json\",\"warning\":\"ShipsNowhere\"}
{\"event\":6,\"file\":\"monday.json\",\"warning\":\"NoEventID\"}
{\"event\":7,\"file\":\"monday.json\",\"type\":\"TransactionEvent\",\"warning\":\"Skipped\"}
{\"event\":8,\"file\":\"monday.json\",\"type\":\"AssociationEvent\",\"warning\":\"Skipped\"}
{\"event\":9,\"fault\":\"BadEpc\",\"field\":\"epcList\",\"file\":\"monday.json\"}
{\"event\":10,\"field\":\"parentID\",\"file\":\"monday.json\",\"text\":\"urn:epc:id:sscc:1.2\",\"warning\":\"NearMiss\"}
{\"event\":10,\"field\":\"childEPCs\",\"file\":\"monday.json\",\"text\":\"(01)1\",\"warning\":\"NearMiss\"}
{\"total\":{\"events\":10,\"faults\":2,\"warnings\":8}}" "" lint --json "$chain/sites" monday.json
ends 1 "fault Syntax event 0 field document broken.json
fault NotDocument event 0 field eventList empty.json
total events 0 faults 2 warnings 0" "" lint "$chain/sites" broken.json empty.json
{
    printf '{"type":"EPCISDocument","epcisBody":{"eventList":['
    event ObjectEvent "$seen,\"eventID\":\"a\",\"epcList\":[\"x\"],\"readPoint\":{\"id\":\"https://id.gs1.org/414/9521321000025\"}"
    printf ,
    event ObjectEvent "$seen,\"eventID\":\"b\",\"epcList\":[\"x\"],\"readPoint\":{\"id\":\"z\"},\"bizLocation\":{\"id\":\"https://id.gs1.org/414/9521321000018\"}"
    printf ']}}'
} >places.json
ends 0 "total events 2 faults 0 warnings 0" "" lint "$chain/sites" places.json
ends 0 "warn OtherPlace event 1 field readPoint https://id.gs1.org/414/9521321000025 places.json
total events 2 faults 0 warnings 1" "" lint "$chain/sites" places.json --site dairy
ends 0 "{\"address\":\"https://id.gs1.org/414/9521321000018\",\"event\":2,\"field\":\"bizLocation\",\"file\":\"places.json\",\"warning\":\"OtherPlace\"}
{\"total\":{\"events\":2,\"faults\":0,\"warnings\":1}}" "" lint --json "$chain/sites" places.json --site plant
ends 1 "refused NoSite Plant" "" lint "$chain/sites" places.json --site Plant

# events by which goods are lost: destinations of what isn't an ObjectEvent, nothing that is packed, a step with which goods
# leave; and beside each an event that is meant so
to_plant='"destinationList":[{"type":"location","destination":"https://id.gs1.org/414/9521321000025"}]'
{
    printf '{"type":"EPCISDocument","epcisBody":{"eventList":['
    event AggregationEvent "\"eventID\":\"a\",\"action\":\"ADD\",\"parentID\":\"p\",\"childEPCs\":[\"x\"],$to_plant"
    printf ,
    event TransformationEvent '"eventID":"b","inputEPCList":["x"],"outputEPCList":["y"],"destinationList":{}'
    printf ,
    event AggregationEvent "$seen,\"eventID\":\"c\",\"destinationList\":[],\"bizStep\":\"departing\""
    printf ,
    event AggregationEvent '"eventID":"d","action":"ADD","parentID":"p","childEPCs":[]'
    printf ,
    event AggregationEvent "\"eventID\":\"e\",\"action\":\"ADD\",\"parentID\":\"p\",$to_plant"
    printf ,
    event AggregationEvent '"eventID":"f","action":"DELETE","parentID":"p","childEPCs":[]'
    printf ,
    event ObjectEvent "$seen,\"eventID\":\"g\",\"epcList\":[\"x\"],\"bizStep\":\"departing\""
    printf ,
    event ObjectEvent "$seen,\"eventID\":\"h\",\"epcList\":[\"x\"],\"bizStep\":\"urn:epcglobal:cbv:bizstep:consigning\",\"destinationList\":[]"
    printf ,
    event ObjectEvent "$seen,\"eventID\":\"i\",\"epcList\":[\"x\"],\"bizStep\":\"https://ref.gs1.org/cbv/BizStep-departing\""
    printf ,
    event ObjectEvent "$seen,\"eventID\":\"j\",\"epcList\":[\"x\"],\"bizStep\":\"departing\",$to_plant"
    printf ,
    event ObjectEvent "$seen,\"eventID\":\"k\",\"epcList\":[\"x\"],\"bizStep\":\"loading\""
    printf ']}}'
} >lost.json
ends 0 "warn NotShipped event 1 field destinationList lost.json
warn NotShipped event 2 field destinationList lost.json
warn NothingPacked event 4 field childEPCs lost.json
warn NotShipped event 5 field destinationList lost.json
warn NothingPacked event 5 field childEPCs lost.json
warn ShipsNowhere event 7 field destinationList lost.json
warn ShipsNowhere event 8 field destinationList lost.json
warn ShipsNowhere event 9 field destinationList lost.json
total events 11 faults 0 warnings 8" "" lint "$chain/sites" lost.json
ends 0 "{\"event\":1,\"field\":\"destinationList\",\"file\":\"lost.json\",\"warning\":\"NotShipped\"}
{\"event\":2,\"field\":\"destinationList\",\"file\":\"lost.json\",\"warning\":\"NotShipped\"}
{\"event\":4,\"field\":\"childEPCs\",\"file\":\"lost.json\",\"warning\":\"NothingPacked\"}
{\"event\":5,\"field\":\"destinationList\",\"file\":\"lost.json\",\"warning\":\"NotShipped\"}
{\"event\":5,\"field\":\"childEPCs\",\"file\":\"lost.json\",\"warning\":\"NothingPacked\"}
{\"event\":7,\"field\":\"destinationList\",\"file\":\"lost.json\",\"warning\":\"ShipsNowhere\"}
{\"event\":8,\"field\":\"destinationList\",\"file\":\"lost.json\",\"warning\":\"ShipsNowhere\"}
{\"event\":9,\"field\":\"destinationList\",\"file\":\"lost.json\",\"warning\":\"ShipsNowhere\"}
{\"total\":{\"events\":11,\"faults\":0,\"warnings\":8}}" "" lint --json "$chain/sites" lost.json

# destinations at the location of a listed site, in other spellings: with an extension, on another host, the GLN alone. A wrong
# check digit, another location and an EPC URI without an extension are places outside
shipped() {
    local at destinations=
    for at in "$@"; do
        destinations="$destinations,{\"type\":\"location\",\"destination\":\"$at\"}"
    done
    event ObjectEvent "$seen,\"eventID\":\"a\",\"epcList\":[\"x\"],\"destinationList\":[${destinations#,}]"
}
shipped urn:epc:id:sgln:9521321.00002.0 https://id.gs1.org/414/9521321000025/254/7 https://id.gs1.org/414/9521321000025 9521321000032 \
    http://dairy.example/414/9521321000049/ https://id.gs1.org/414/9521321000026 urn:epc:id:sgln:9521321.00099.0 urn:epc:id:sgln:9521321.00002 >spelled.json
ends 0 "warn OtherSpelling event 1 field destinationList urn:epc:id:sgln:9521321.00002.0 plant spelled.json
warn OtherSpelling event 1 field destinationList https://id.gs1.org/414/9521321000025/254/7 plant spelled.json
warn OtherSpelling event 1 field destinationList 9521321000032 shop-1 spelled.json
warn OtherSpelling event 1 field destinationList http://dairy.example/414/9521321000049/ shop-2 spelled.json
warn Outside event 1 field destinationList https://id.gs1.org/414/9521321000026 spelled.json
warn Outside event 1 field destinationList urn:epc:id:sgln:9521321.00099.0 spelled.json
warn Outside event 1 field destinationList urn:epc:id:sgln:9521321.00002 spelled.json
total events 1 faults 0 warnings 7" "" lint "$chain/sites" spelled.json
printf 'site a urn:epc:id:sgln:9521321.00002.1\nsite b urn:epc:id:sgln:9521321.00003.0 urn:epc:id:sgln:952132100002..2\nsite c\n' >halves
shipped 9521321000025 urn:epc:id:sgln:9521321.00002.1 >halved.json
ends 0 "{\"address\":\"9521321000025\",\"event\":1,\"field\":\"destinationList\",\"file\":\"halved.json\",\"site\":\"a\",\"warning\":\"OtherSpelling\"}
{\"address\":\"9521321000025\",\"event\":1,\"field\":\"destinationList\",\"file\":\"halved.json\",\"site\":\"b\",\"warning\":\"OtherSpelling\"}
{\"total\":{\"events\":1,\"faults\":0,\"warnings\":2}}" "" lint --json halves halved.json
for name in dairy plant shop-1 shop-2; do
    "$recall" lint "$chain/sites" "$chain/$name.json" >out 2>err </dev/null || complain "$name.json: $(cat out err)"
    grep -q '^fault' out && complain "$name.json has a fault: $(cat out)"
    ran=$((ran + 1))
done

# the standard input; a file that isn't there; a list that is refused
cp broken.json input
ends 1 "fault Syntax event 0 field document -
total events 0 faults 1 warnings 0" "" lint "$chain/sites" -
: >input
ends 3 "fault Syntax event 0 field document broken.json" "fault Read
file none.json" lint "$chain/sites" broken.json none.json empty.json
ends 3 "" "fault Read
file none" lint none broken.json
printf 'site A\nreach A x\n' >list
ends 1 "refused BadLine
refused NoWorld" "" lint list broken.json
ends 2 "" "error:" lint "$chain/sites"

# what capture refuses a document for is the first fault
mkdir made
"$recall" init made "$chain/sites" >/dev/null || complain "init"
ends 1 "refused Doc HalfTransformation event 3 field transformationID" "" capture made dairy monday.json
ends 1 "refused Doc Syntax event 0 field document" "" capture made dairy broken.json

cmp -s monday.json ../"$(basename "$work")".before/monday.json || complain "a document was changed"
rm -rf ../"$(basename "$work")".before
[ "$failed" = 0 ] && echo "lint: $ran commands ended as they should"
exit "$failed"
