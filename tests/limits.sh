#!/usr/bin/env bash
# Runs scripts at the limits of items, documents, lists of sites, lots of units and long lists, and compares each answer:
# what a definition says by a number or a character is told here a second time, by each character and by the last case on
# either side of each number. Likewise it converts long lists and documents, and compares what each part has.
# Run by hand, and by the gate on the program that it built. RECALL names another program. It takes a few seconds.
# It ends with status 0 where all is as it should be.
set -u
export LC_ALL=C
here=$(cd "$(dirname "$0")/.." && pwd) || exit 2
recall=${RECALL:-}
if [ -z "$recall" ]; then
    "$here/recall" --help >/dev/null || exit 2
    recall="$here/crates/recall_cli/out/recall_cli"
fi
. "$here/tests/rows.sh"

# one KEY TEXT: a line that asks for an item at A, and what it prints where its key is this
one() {
    row "reach A $2" "pair A $1" 'pairs 1'
}

# Serials: each byte, written as an escape in both forms of an SGTIN.

begins 'site A a' 'site B b'
serial='0123456789ABCDEFGHIJKLMNOPQRSTUVWXYZabcdefghijklmnopqrstuvwxyz_!"%&'"'"'()*+,-./:;<=>?'
[ ${#serial} -eq 82 ] || exit 2
urn=urn:epc:id:sgtin:0614141.112345
link=https://id.gs1.org/01/10614141123459/21
key='sgtin 10614141123459'
for byte in $(seq 0 255); do
    escape=$(printf '%%%02X' "$byte")
    small=$(printf '%%%02x' "$byte")
    is_one=0
    if [ "$byte" -gt 32 ] && [ "$byte" -lt 127 ]; then
        char=$(printf %b "\\x$(printf %02x "$byte")")
        case $serial in *"$char"*) is_one=1 ;; esac
    fi
    if [ $is_one -eq 1 ]; then
        one "$key 4$char" "$urn.4$escape"
        one "$key 4$char" "$link/4$small"
    else
        one "uri $urn.4$escape" "$urn.4$escape"
        one "uri $link/4$small" "$link/4$small"
    fi
done
# By themselves, and how many of them.
one "uri $urn.4\$" "$urn.4\$"
one "uri $urn.4@" "$urn.4@"
one "uri $urn.4[" "$urn.4["
one "uri $urn.4\`" "$urn.4\`"
one "uri $urn.4^" "$urn.4^"
one "uri $urn.4{" "$urn.4{"
one "uri $urn." "$urn."
one "uri $link/" "$link/"
for form in "$urn." "$link/"; do
    one "$key 1" "${form}1"
    one "$key 1234567890123456789" "${form}1234567890123456789"
    one "$key 12345678901234567890" "${form}12345678901234567890"
    one "uri ${form}123456789012345678901" "${form}123456789012345678901"
    one "$key ////////////////////" "$form$(printf '%%2F%.0s' $(seq 20))"
done
# Company prefixes of 6 to 12 digits; check digits.
one 'sgtin 10614141123459 4' urn:epc:id:sgtin:061414.1112345.4
one 'sgtin 10614141123459 4' urn:epc:id:sgtin:061414112345.1.4
one 'uri urn:epc:id:sgtin:06141.11412345.4' urn:epc:id:sgtin:06141.11412345.4
one 'uri urn:epc:id:sgtin:0614141123451..4' urn:epc:id:sgtin:0614141123451..4
one 'uri https://id.gs1.org/01/10614141123458/21/4' https://id.gs1.org/01/10614141123458/21/4
one 'sscc 106141412345678908' urn:epc:id:sscc:0614141.1234567890
one 'sscc 106141412345678908' urn:epc:id:sscc:061414.11234567890
one 'sscc 106141412345678908' urn:epc:id:sscc:061414123456.17890
one 'uri urn:epc:id:sscc:06141.112345678901' urn:epc:id:sscc:06141.112345678901
one 'uri urn:epc:id:sscc:1234567890123.4567' urn:epc:id:sscc:1234567890123.4567
one 'uri https://id.gs1.org/00/106141412345678909' https://id.gs1.org/00/106141412345678909
# A text has 512 bytes at most.
long=$(printf 'x%.0s' $(seq 512))
one "uri $long" "$long"
row "reach A x$long" 'refused BadEpc'
ends 'serials'

# Offsets of times.

begins 'site A a' 'site B b'
# offset TEXT ANSWER: a document whose event has this offset
offset() {
    row "capture A {\"type\":\"ObjectEvent\",\"eventTime\":\"2024-05-01T08:00:00Z\",\"eventTimeZoneOffset\":\"$1\",\"action\":\"OBSERVE\",\"epcList\":[\"x\"]}" "$2"
}
for good in +00:00 -00:00 +01:00 -01:30 +09:59 +10:00 +13:00 +14:00 -14:00 -05:45; do
    offset "$good" 'captured 1 known 0 skipped 0'
done
for bad in '' +00.00 +00x00 x00:00 '.00:00' ' 00:00' +00:60 +00:99 +00:0 +00:000 +000:00 +0:00 +0000 +00: :00 00:00 Z z -15:00 +15:00 +24:00 +0a:00 +00:0a +00:a0 '+00:00 ' ' +00:00' ++0:00 +-1:00 +00:-1; do
    offset "$bad" 'refused Doc Offset event 1 field eventTimeZoneOffset'
done
ends 'offsets'

# The order of checks: a document with two faults has the first.

begins 'site A a' 'site B b'
made '"outputEPCList":5,"inputEPCList":5' 'refused Doc WrongShape event 1 field inputEPCList'
made '"transformationID":5,"inputEPCList":5' 'refused Doc WrongShape event 1 field inputEPCList'
made '"transformationID":5,"outputEPCList":5' 'refused Doc WrongShape event 1 field outputEPCList'
made '"transformationID":5,"inputEPCList":["x"]' 'refused Doc WrongShape event 1 field transformationID'
seen "\"errorDeclaration\":{},\"quantityList\":5,\"eventID\":5" 'refused Doc ErrorDeclared event 1 field errorDeclaration'
seen "\"quantityList\":5,\"eventID\":5" 'refused Doc WrongShape event 1 field quantityList'
seen "\"eventID\":5,\"eventTime\":5" 'refused Doc WrongShape event 1 field eventID'
seen "\"eventTime\":5,\"eventTimeZoneOffset\":5" 'refused Doc WrongShape event 1 field eventTime'
seen "\"eventTime\":\"2024-05-01T08:00:00Z\",\"eventTimeZoneOffset\":5,\"action\":5" 'refused Doc WrongShape event 1 field eventTimeZoneOffset'
seen "$at,\"action\":5,\"epcList\":5" 'refused Doc WrongShape event 1 field action'
seen "$at,\"action\":\"OBSERVE\",\"epcList\":5,\"destinationList\":5" 'refused Doc WrongShape event 1 field epcList'
seen "$at,\"action\":\"OBSERVE\",\"epcList\":[],\"destinationList\":5" 'refused Doc WrongShape event 1 field destinationList'
# packed MEMBERS ANSWER: an aggregation at A with these members
packed() {
    row "capture A {\"type\":\"AggregationEvent\",$1}" "$2"
}
packed "\"errorDeclaration\":{},\"childQuantityList\":5,\"eventID\":5" 'refused Doc ErrorDeclared event 1 field errorDeclaration'
packed "\"childQuantityList\":5,\"eventID\":5" 'refused Doc WrongShape event 1 field childQuantityList'
packed "\"eventID\":5,\"eventTime\":5" 'refused Doc WrongShape event 1 field eventID'
packed "$at,\"action\":5,\"parentID\":5" 'refused Doc WrongShape event 1 field action'
packed "$at,\"parentID\":5" 'refused Doc Missing event 1 field action'
packed "$at,\"action\":\"ADD\",\"parentID\":5,\"childEPCs\":5" 'refused Doc WrongShape event 1 field parentID'
packed "$at,\"action\":\"ADD\",\"parentID\":\"a b\",\"childEPCs\":5" 'refused Doc BadEpc event 1 field parentID'
packed "$at,\"action\":\"ADD\",\"childEPCs\":5" 'refused Doc Missing event 1 field parentID'
packed "$at,\"action\":\"DELETE\",\"childEPCs\":5" 'refused Doc WrongShape event 1 field childEPCs'
ends 'the order of checks'

# How much a document holds.

begins 'site A a' 'site B b'
epcs=$(repeated 1000 '"x"')
to=$(repeated 1000 '{"destination":"b"}')
event="{\"type\":\"ObjectEvent\",$at,\"action\":\"OBSERVE\",\"epcList\":[\"x\"]}"
events=$(repeated 999 "$event")
seen "$at,\"action\":\"OBSERVE\",\"epcList\":[$epcs],\"destinationList\":[$to]" 'captured 1 known 0 skipped 0'
seen "$at,\"action\":\"OBSERVE\",\"epcList\":[$epcs,\"x\"]" 'refused Doc TooManyEpcs event 1 field epcList'
seen "$at,\"action\":\"OBSERVE\",\"epcList\":[$epcs],\"destinationList\":[$to,5]" 'refused Doc TooManyEpcs event 1 field destinationList'
made "\"inputEPCList\":[$epcs],\"outputEPCList\":[$epcs]" 'captured 1 known 0 skipped 0'
made "\"inputEPCList\":[$epcs,\"x\"],\"outputEPCList\":[$epcs]" 'refused Doc TooManyEpcs event 1 field inputEPCList'
made "\"inputEPCList\":[$epcs],\"outputEPCList\":[$epcs,\"x\"]" 'refused Doc TooManyEpcs event 1 field outputEPCList'
packed "$at,\"action\":\"ADD\",\"parentID\":\"p\",\"childEPCs\":[$epcs]" 'captured 1 known 0 skipped 0'
packed "$at,\"action\":\"ADD\",\"parentID\":\"p\",\"childEPCs\":[$epcs,\"x\"]" 'refused Doc TooManyEpcs event 1 field childEPCs'
row "capture B {\"type\":\"EPCISDocument\",\"epcisBody\":{\"eventList\":[$events,$event]}}" 'captured 1000 known 0 skipped 0'
row "capture B {\"type\":\"EPCISDocument\",\"epcisBody\":{\"eventList\":[$events,$event,5]}}" 'refused Doc TooManyEvents event 0 field eventList'
# They are counted before any is looked at, and what would be skipped counts, too.
row "capture B {\"type\":\"EPCISDocument\",\"epcisBody\":{\"eventList\":[$(repeated 1001 '{"type":"TransactionEvent"}')]}}" 'refused Doc TooManyEvents event 0 field eventList'
seen "$at,\"action\":\"OBSERVE\",\"epcList\":[$(repeated 1001 5)]" 'refused Doc TooManyEpcs event 1 field epcList'
seen "$at,\"action\":\"OBSERVE\",\"epcList\":[\"x\"],\"destinationList\":[$(repeated 1001 5)]" 'refused Doc TooManyEpcs event 1 field destinationList'
ends 'how much a document holds'

# A chain of 1,000 transformations of items with a long common beginning.

begins 'site A a' 'site B b'
item=$(printf 'x%.0s' $(seq 120))
chain=$(for n in $(seq 1000); do
    printf '{"type":"TransformationEvent",%s,"inputEPCList":["%s"],"outputEPCList":["%s"]},' "$at" "$item$((n - 1))" "$item$n"
done)
row "capture A {\"type\":\"EPCISDocument\",\"epcisBody\":{\"eventList\":[${chain%,}]}}" 'captured 1000 known 0 skipped 0'
mapfile -t pairs < <(seq 0 1000 | sed "s/^/pair A uri $item/" | sort)
row "reach A ${item}0" "${pairs[@]}" 'pairs 1001'
ends 'a long chain'

# Lists of sites.

begins
sixteen=$(printf ' a%d' $(seq 16))
row 'site abcdefghijklmnop a'
row 'site abcdefghijklmnopq b' 'refused BadSite BadName'
row 'site a.b b' 'refused BadSite BadName'
row 'site a/b b' 'refused BadSite BadName'
row 'site abcdefghijklmnop b' 'refused BadSite NameTaken'
row 'site -_9Z b a' 'refused BadSite AddressTaken'
row 'site -_9Z b b' 'refused BadSite AddressTaken'
row "site M$sixteen a17" 'refused BadSite TooMany'
row "site M$sixteen"
row "site N $long"
row "site O x$long" 'refused BadSite BadAddress'
for number in $(seq 4 16); do
    row "site S$number"
done
row 'site S17' 'refused BadSite TooMany'
row 'reach S16 x' 'pair S16 uri x' 'pairs 1'
row 'site S17' 'refused Late'
ends 'lists of sites'

# Numbers of frames and of recalls have 1 to 18 digits, of which the first may be 0.

begins 'site A a' 'site B b'
row 'send A 1' 'refused NoFrame'
row 'send A 01' 'refused NoFrame'
row 'send A 000000000000000001' 'refused NoFrame'
row 'send A 123456789012345678' 'refused NoFrame'
row 'send A 1234567890123456789' 'refused BadLine'
row 'send A 0000000000000000001' 'refused BadLine'
row 'quarantine A#01' 'refused NoRecall'
row 'quarantine A#123456789012345678' 'refused NoRecall'
row 'quarantine A#1234567890123456789' 'refused BadLine'
row 'quarantine A#' 'refused BadLine'
ends 'numbers'

# Pairs come by site and then by item; the least item and then the least recall are named that block.

begins 'site A a' 'site B b' 'site C c'
# goes ITEMS SITE ANSWER: a shipment
goes() {
    seen "$at,\"action\":\"OBSERVE\",\"epcList\":[$1],\"destinationList\":[{\"destination\":\"$2\"}]" "$3"
}
made '"inputEPCList":["r"],"outputEPCList":["y","x"]' 'captured 1 known 0 skipped 0'
goes '"y"' b 'captured 1 known 0 skipped 0'
goes '"x"' b 'captured 1 known 0 skipped 0'
row 'reach A r' 'pair A uri r' 'pair A uri x' 'pair A uri y' 'pair B uri x' 'pair B uri y' 'pairs 5'
row 'recall A r' 'recall A#1 new 3 messages 2 open'
row 'recall A r' 'recall A#2 new 3 messages 2 open'
goes '"y","x"' c 'refused Blocked A#1 uri x event 1'
row 'quarantine A#2' 'pair A uri r' 'pair A uri x' 'pair A uri y' 'quarantined 3 open'
row 'pump 2' 'ended A#1' 'ended A#2' 'pumped 2 frames 8'
row 'quarantine A#1' 'pair A uri r' 'pair A uri x' 'pair A uri y' 'pair B uri x' 'pair B uri y' 'quarantined 5 ended'
ends 'pairs'

# Lots that an event names for its units: 10 lot numbers at most, and 1,000 units, each counted once for each lot. A list of
# more than 1,000 units becomes an event in parts, with none of its lots.

# tied UNITS LOTS DERIVED UNTIED PARTS: an event with so many units whose `ilmd` names the lots from 1 on, converted
tied() {
    {
        printf '{"type":"ObjectEvent","epcList":['
        seq "$1" | sed 's/.*/"urn:epc:id:sgtin:0614141.112345.&"/' | paste -sd , | tr -d '\n'
        printf '],"ilmd":{"lotNumber":['
        seq "$2" | sed 's/.*/"&"/' | paste -sd , | tr -d '\n'
        printf ']}}'
    } >"$work/document"
    "$recall" convert --lots "$work/document" >"$work/converted" 2>"$work/printed" || failed=1
    echo "note: written 1 events $(($5 + $3)) links 0 lots 0 derived $3 untied $4 parted $(($5 > 1)) errors 0 places 0 places_of_several 0 left 0" >"$work/wanted"
    if ! diff -u --label 'as it should be' --label "$1 units of $2 lots" "$work/wanted" "$work/printed"; then
        failed=1
    fi
    rows=$((rows + 1))
}
tied 1000 1 1 0 1
tied 1001 1 0 1 2
tied 500 2 2 0 1
tied 501 2 0 1 1
tied 100 10 10 0 1
tied 101 10 0 1 1
tied 1 11 0 1 1
tied 0 11 0 0 1

# Long lists and long documents, in parts that a capture takes; what repeats much stays as it is, and is refused.

# items COUNT: so many items
items() {
    seq "$1" | sed 's/.*/"&"/' | paste -sd , | tr -d '\n'
}

# event NUMBER: a small event
event() {
    printf '{"type":"ObjectEvent",%s,"eventID":"e%s","action":"OBSERVE","epcList":["x%s"]}' "$at" "$1" "$1"
}

# parted EVENTS PARTED LINES taken|refused: the document is converted into so many events and lines, and then captured twice
parted() {
    local document=$4
    "$recall" convert "$work/document" >"$work/converted" 2>"$work/printed" || failed=1
    rm -rf "$work/chain"
    mkdir "$work/chain"
    printf 'site A a\nsite B b\n' >"$work/list"
    "$recall" init "$work/chain" "$work/list" || failed=1
    for _ in 1 2; do
        "$recall" capture "$work/chain" A --lines "$work/converted" 2>"$work/told" | tail -n 1 >>"$work/printed"
    done
    {
        echo "note: written $3 events $1 links 0 lots 0 derived 0 untied 0 parted $2 errors 0 places 0 places_of_several 0 left 0"
        if [ "$document" = taken ]; then
            echo "documents $3 captured $1 known 0 skipped 0 refused 0"
            echo "documents $3 captured 0 known $1 skipped 0 refused 0"
        else
            echo "documents 1 captured 0 known 0 skipped 0 refused 1"
            echo "documents 1 captured 0 known 0 skipped 0 refused 1"
        fi
    } >"$work/wanted"
    if ! diff -u --label 'as it should be' --label "$1 events in $3 documents" "$work/wanted" "$work/printed"; then
        failed=1
    fi
    rows=$((rows + 1))
}

# listed COUNT LETTERS: the document is an event with so many items, and so many letters beside them
listed() {
    printf '{"type":"ObjectEvent",%s,"eventID":"e","action":"OBSERVE","a":"%s","epcList":[%s]}' \
        "$at" "$(printf "%$2s" '' | tr ' ' x)" "$(items "$1")" >"$work/document"
}
listed 1000 0
parted 1 0 1 taken
listed 1001 0
parted 2 1 1 taken
listed 2001 0
parted 3 1 1 taken
# Beside the list stand 10,000 by weight, and then one more: 97 of them aren't letters.
listed 1001 9903
parted 2 1 1 taken
listed 1001 9904
parted 1 0 1 refused

# held COUNT LETTERS: the document has so many events, and so many letters beside its body
held() {
    {
        printf '{"type":"EPCISDocument","a":"%s","epcisBody":{"eventList":[' "$(printf "%$2s" '' | tr ' ' x)"
        for number in $(seq "$1"); do event "$number"; echo; done | paste -sd ,
        printf ']}}'
    } >"$work/document"
}
held 1000 10000
parted 1000 0 1 taken
held 1001 0
parted 1001 0 2 taken
held 1001 9980
parted 1001 0 2 taken
held 1001 9981
parted 1001 0 1 refused

# led INPUT MEMBERS LAST: a transformation of 1,001 inputs and one output, with these members, converted and captured; how
# a trace of this input ends
led() {
    printf '{"type":"TransformationEvent",%s,%s"inputEPCList":[%s],"outputEPCList":["out"]}' "$at" "$2" "$(items 1001)" >"$work/document"
    rm -rf "$work/chain"
    mkdir "$work/chain"
    "$recall" init "$work/chain" "$work/list" || failed=1
    "$recall" convert "$work/document" 2>"$work/told" | "$recall" capture "$work/chain" A --lines - >"$work/printed" 2>"$work/told" || failed=1
    "$recall" trace "$work/chain" A "$1" --brief 2>"$work/told" | tail -n 1 >"$work/printed"
    echo "$3" >"$work/wanted"
    if ! diff -u --label 'as it should be' --label "the input $1" "$work/wanted" "$work/printed"; then
        failed=1
    fi
    rows=$((rows + 1))
}
led 1 '"eventID":"e",' 'total 2 outside 0'
led 1001 '"eventID":"e",' 'total 2 outside 0'
led 1001 '"transformationID":"t",' 'total 2 outside 0'
led 1001 '' 'total 2 outside 0'

# lined LENGTH STATUS ERRORS: a script of one line of so many spaces ends so, and prints nothing
lined() {
    { head -c "$1" /dev/zero | tr '\0' ' ' && echo; } | "$recall" sim >"$work/printed" 2>"$work/told"
    [ $? = "$2" ] && [ ! -s "$work/printed" ] && [ "$(cat "$work/told")" = "$3" ] || failed=1
    rows=$((rows + 1))
}
lined 16777216 0 ''
lined 16777217 3 'fault LineTooLong'

# What parts have: the events of each document that a conversion writes. An event by its identifier, the first item and the
# length of each of its lists, its parent and its transformation; `alone` where the document is an event.

# beside MEMBERS LIST COUNT: the document is an event with these members, and a list of so many items
beside() {
    printf '{%s,"%s":[%s]}' "$1" "$2" "$(items "$3")" >"$work/document"
}

# shapes LINE..: what the document is converted into, a line for each document
shapes() {
    "$recall" convert "$work/document" >"$work/converted" 2>"$work/told" || failed=1
    python3 - "$work/converted" >"$work/printed" <<'PYTHON'
import json
import sys

LISTS = ('epcList', 'childEPCs', 'inputEPCList', 'outputEPCList')


def shape(event):
    """An event in short."""
    lists = [f'{event[name][0] if event[name] else "-"}+{len(event[name])}' for name in LISTS if name in event]
    return ' '.join([event.get('eventID', '-'), *lists, event.get('parentID', '-'), event.get('transformationID', '-')])


with open(sys.argv[1]) as lines:
    for document in map(json.loads, lines):
        if 'epcisBody' in document:
            print(' | '.join(map(shape, document['epcisBody']['eventList'])))
        else:
            print('alone', shape(document))
PYTHON
    printf '%s\n' "$@" >"$work/wanted"
    if ! diff -u --label 'as it should be' --label "the parts of $1" "$work/wanted" "$work/printed"; then
        failed=1
    fi
    rows=$((rows + 1))
}
named='"type":"ObjectEvent","eventID":"e"'
beside "$named" epcList 1000
shapes 'alone e 1+1000 - -'
beside "$named" epcList 1001
shapes 'e#1 1+1000 - - | e#2 1001+1 - -'
beside "$named" epcList 2000
shapes 'e#1 1+1000 - - | e#2 1001+1000 - -'
beside "$named" epcList 2001
shapes 'e#1 1+1000 - - | e#2 1001+1000 - - | e#3 2001+1 - -'
packed='"type":"AggregationEvent","parentID":"p"'
beside "$packed" childEPCs 1000
shapes 'alone - 1+1000 p -'
beside "$packed" childEPCs 1001
shapes '- 1+1000 p - | - 1001+1 p -'
# Transformations: by the identifier that they have, by one that is made of the event's, and each part of one list with each of
# the other.
made="\"type\":\"TransformationEvent\",\"inputEPCList\":[$(items 1500)]"
beside "$made,\"transformationID\":\"t\"" outputEPCList 2500
shapes '- 1+1000 1+1000 - t | - 1001+500 1001+1000 - t | - -+0 2001+500 - t'
beside "$made,\"eventID\":\"e\"" outputEPCList 2500
shapes 'e#1 1+1000 1+1000 - e#made | e#2 1001+500 1001+1000 - e#made | e#3 -+0 2001+500 - e#made'
beside "$made" outputEPCList 2500
shapes '- 1+1000 1+1000 - - | - 1+1000 1001+1000 - - | - 1+1000 2001+500 - - | - 1001+500 1+1000 - - | - 1001+500 1001+1000 - - | - 1001+500 2001+500 - -'

# What is parted, by what stands beside a list and beside a body, and by how many parts repeat lists.

# letters COUNT: so many letters
letters() {
    printf "%$1s" '' | tr ' ' x
}

# counted WRITTEN EVENTS PARTED: the document is converted into so many documents and events, and so many events were parted
counted() {
    "$recall" convert "$work/document" >"$work/converted" 2>"$work/printed" || failed=1
    echo "note: written $1 events $2 links 0 lots 0 derived 0 untied 0 parted $3 errors 0 places 0 places_of_several 0 left 0" >"$work/wanted"
    if ! diff -u --label 'as it should be' --label "$2 events in $1 documents" "$work/wanted" "$work/printed"; then
        failed=1
    fi
    rows=$((rows + 1))
}

# weighed LETTERS MEMBERS LIST COUNT: the document is an event with so many letters, these members and so many items
weighed() {
    printf '{"a":"%s",%s,"%s":[%s]}' "$(letters "$1")" "$2" "$3" "$(items "$4")" >"$work/document"
}
# 10,000 by weight stand beside the list in the first of each two rows: 18, 23 and 44 of them aren't letters.
weighed 9982 '"type":"ObjectEvent"' epcList 1001
counted 1 2 1
weighed 9983 '"type":"ObjectEvent"' epcList 1001
counted 1 1 0
weighed 9983 '"type":"ObjectEvent"' epcList 1000
counted 1 1 0
weighed 9977 '"type":"AggregationEvent"' childEPCs 1001
counted 1 2 1
weighed 9978 '"type":"AggregationEvent"' childEPCs 1001
counted 1 1 0
made='"type":"TransformationEvent","transformationID":"t","inputEPCList":["i"]'
weighed 9956 "$made" outputEPCList 1001
counted 1 2 1
weighed 9957 "$made" outputEPCList 1001
counted 1 1 0
# A transformation without an identifier has ten parts at most.
made='"type":"TransformationEvent","inputEPCList"'
beside "$made:[$(items 5000)]" outputEPCList 2000
counted 1 10 1
beside "$made:[$(items 5000)]" outputEPCList 2001
counted 1 1 0
beside "$made:[$(items 10000)]" outputEPCList 1
counted 1 10 1
beside "$made:[$(items 10001)]" outputEPCList 1
counted 1 1 0
beside "\"eventID\":\"e\",$made:[$(items 10001)]" outputEPCList 2000
counted 1 11 1

# several LETTERS ITEMS OTHERS: the document has so many letters beside its body, an event of so many items and so many others
several() {
    {
        printf '{"type":"EPCISDocument","a":"%s","epcisBody":{"eventList":[' "$(letters "$1")"
        printf '{"type":"ObjectEvent","epcList":[%s]}' "$(items "$2")"
        printf '%.0s,{"type":"ObjectEvent"}' $(seq "$3")
        printf ']}}'
    } >"$work/document"
}
# 10,000 by weight stand beside the body in the first row: 20 of them aren't letters.
several 9980 1 1000
counted 2 1001 0
several 9981 1 1000
counted 1 1001 0
several 9981 1 999
counted 1 1000 0
several 9981 1001 998
counted 1 1000 1
several 9981 1001 999
counted 1 1000 0
several 9980 1001 999
counted 2 1001 1
# Two events with long lists are parted together, or neither is.
for much in '' "$(letters 10000)"; do
    printf '{"type":"EPCISDocument","epcisBody":{"eventList":[{"type":"ObjectEvent","epcList":[%s]},{"type":"ObjectEvent","epcList":[%s],"a":"%s"}]}}' \
        "$(items 1001)" "$(items 1001)" "$much" >"$work/document"
    [ -z "$much" ] && counted 1 4 2 || counted 1 2 0
done
# A document of 2,500 events becomes three, each with what stands beside the body.
held 2500 1
counted 3 2500 0
wc -l <"$work/converted" | grep -qx 3 || failed=1
[ "$(grep -c '"a":"x"' "$work/converted")" = 3 ] || failed=1

[ $failed -eq 0 ] && echo "$rows rows"
exit $failed
