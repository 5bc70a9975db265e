#!/usr/bin/env bash
# Runs scripts in which goods go in containers, and compares each answer: what is carried with a shipped container, what
# adds nothing, and what is blocked.
# Run by hand, and by the gate on the program that it built. RECALL names another program. It takes a second.
# It ends with status 0 where all is as it should be.
set -u
export LC_ALL=C
here=$(cd "$(dirname "$0")/.." && pwd) || exit 2
recall=${RECALL:-}
if [ -z "$recall" ]; then
    "$here/recall" --help >/dev/null || exit 2
    recall="$here/crates/recall_cli/out/recall_cli"
fi
. "$here/tests/rows.sh"

# all WORD..: the words as texts of a list
all() {
    local list
    list=$(printf '"%s",' "$@")
    printf '%s' "${list%,}"
}

# note ITEM..: an ObjectEvent that sees them
note() {
    printf '{"type":"ObjectEvent",%s,"action":"OBSERVE","epcList":[%s]}' "$at" "$(all "$@")"
}

# ship DESTINATION ITEM..: one that ships them there
ship() {
    local to=$1
    shift
    printf '{"type":"ObjectEvent",%s,"action":"OBSERVE","epcList":[%s],"destinationList":[{"destination":"%s"}]}' "$at" "$(all "$@")" "$to"
}

# pack ACTION PARENT CHILD..: an AggregationEvent; without the parent where that is a dash
pack() {
    local action=$1 parent=$2
    shift 2
    [ "$parent" = - ] && parent= || parent="\"parentID\":\"$parent\","
    printf '{"type":"AggregationEvent",%s,"action":"%s",%s"childEPCs":[%s]}' "$at" "$action" "$parent" "$(all "$@")"
}

# document EVENT..: a document of these events
document() {
    local events
    events=$(printf '%s,' "$@")
    printf '{"type":"EPCISDocument","epcisBody":{"eventList":[%s]}}' "${events%,}"
}

# captured SITE EVENT [ANSWER]: it is captured there, or answered so
captured() {
    row "capture $1 $2" "${3:-captured 1 known 0 skipped 0}"
}

# reaches SITE ITEM SITE:ITEM..: it reaches these pairs alone
reaches() {
    local line="reach $1 $2" pair answer=()
    shift 2
    for pair in "$@"; do
        answer+=("pair ${pair%%:*} uri ${pair#*:}")
    done
    row "$line" "${answer[@]}" "pairs $#"
}

begins 'site A a' 'site B b'
captured A "$(document "$(pack ADD p x)" "$(ship b p)")" 'captured 2 known 0 skipped 0'
reaches A x A:x B:x
reaches A p A:p B:p
captured A "$(pack DELETE p x)"
reaches A x A:x B:x
row 'recall A x' 'recall A#1 new 1 messages 1 open'
ends 'what is packed is shipped with its container'

begins 'site A a' 'site B b'
captured A "$(document "$(pack ADD q p)" "$(pack ADD p x)")" 'captured 2 known 0 skipped 0'
captured A "$(ship b q)"
reaches A x A:x B:x
ends 'and what is packed in that'

begins 'site A a' 'site B b'
captured A "$(note x)"
row 'recall A x' 'recall A#1 new 1 messages 0 ended'
captured A "$(pack ADD p x)"
captured A "$(ship b p)" 'refused Blocked A#1 uri x event 1'
captured A "$(ship b q)"
captured A "$(pack ADD q x)" 'refused Blocked A#1 uri x event 1'
captured A "$(pack ADD r p)"
captured A "$(ship b r)" 'refused Blocked A#1 uri x event 1'
captured A "$(pack ADD x z)"
captured A "$(ship b z)"
ends 'what is quarantined leaves in no container'

begins 'site A a' 'site B b'
captured A "$(pack ADD - x)" 'refused Doc Missing event 1 field parentID'
captured A "$(pack OBSERVE - x)"
row "capture A {\"type\":\"AggregationEvent\",$at,\"action\":\"ADD\",\"parentID\":\"p\",\"childQuantityList\":[{}]}" 'refused Doc Quantities event 1 field childQuantityList'
row "capture A {\"type\":\"AggregationEvent\",$at,\"action\":\"ADD\",\"parentID\":\"p\"}" 'captured 1 known 0 skipped 0'
row 'recall A x' 'recall A#1 new 1 messages 0 ended'
row 'recall A p' 'recall A#2 new 1 messages 0 ended'
captured A "$(pack DELETE q z)"
row 'recall A q' 'recall A#3 new 1 messages 0 ended'
ends 'aggregations that are refused, and items that are known by one'

# What adds nothing: OBSERVE and DELETE, the pack of another site, a parent by its child, a pack without children.
begins 'site A a' 'site B b' 'site C c'
captured A "$(document "$(pack OBSERVE p x)" "$(pack DELETE p y)" "$(ship b p)")" 'captured 3 known 0 skipped 0'
reaches A x A:x
reaches A y A:y
captured B "$(pack ADD q z)"
captured A "$(ship b q)"
reaches A z A:z
captured A "$(pack ADD r s)"
captured A "$(ship b s)"
reaches A r A:r
reaches A s A:s B:s
# The site that ships a container on captures what was packed elsewhere, too.
captured B "$(ship c q)"
reaches B z B:z C:z
ends 'what adds nothing'

# A container goes over two sites; what is made of what lay in it is found; cycles end.
begins 'site A a' 'site B b' 'site C c'
captured A "$(pack ADD p x y)"
captured A "$(ship b p)"
captured B "$(pack ADD p x y)"
captured B "$(ship c p)"
captured C "{\"type\":\"TransformationEvent\",$at,\"inputEPCList\":[\"y\"],\"outputEPCList\":[\"z\"]}"
reaches A y A:y B:y C:y C:z
row 'recall A y' 'recall A#1 new 1 messages 1 open'
row 'pump 3' 'ended A#1' 'pumped 3 frames 5'
row 'quarantine A#1' 'pair A uri y' 'pair B uri y' 'pair C uri y' 'pair C uri z' 'quarantined 4 ended'
ends 'a container over two sites'

begins 'site A a' 'site B b'
captured A "$(document "$(pack ADD p q)" "$(pack ADD q p)" "$(pack ADD q q x)")" 'captured 3 known 0 skipped 0'
captured A "$(ship b q)"
reaches A p A:p B:p
reaches A x A:x B:x
captured A "$(ship b q)"
captured A "$(pack ADD x y)"
reaches A y A:y B:y
ends 'cycles'

[ $failed -eq 0 ] && echo "$rows rows"
exit $failed
