#!/usr/bin/env bash
# Drives `recall run` on folders of files as a person would: a recall over sixteen sites to its end, stops by `kill -9`
# at moments of the run, after each of which an audit finds the files in order and further runs end the recall, and two
# runs of one folder at once, of which one is refused; it looks what a terminal is told of a run, runs sites that share
# threads, where it is root, and sites whose files may not grow.
# Run by hand, and by the gate on the program that it built. RECALL names another program, STOPS how often it is
# stopped. It ends with status 0 where all is as it should be, and takes less than two minutes.
set -u
here=$(cd "$(dirname "$0")/.." && pwd) || exit 2
recall=${RECALL:-}
if [ -z "$recall" ]; then
    "$here/recall" --help >/dev/null || exit 2
    recall="$here/crates/recall_cli/out/recall_cli"
fi
work=$(mktemp -d) || exit 2
trap 'rm -rf "$work"' EXIT
cd "$work" || exit 2
failed=0
stops=${STOPS:-30}
sites=16

# complain WORD..: tells what is wrong
complain() {
    printf '%s\n' "$*" >&2
    failed=1
}

. "$here/tests/means.sh"

# wants STATUS OUTPUT ERRORS WORD..: the program ends so on these words
wants() {
    local status=$1 output=$2 errors ended
    errors=$(explained "$4" "$2" "$3")
    shift 3
    "$recall" "$@" >out 2>err </dev/null
    ended=$?
    if [ "$ended" != "$status" ] || [ "$(cat out)" != "$output" ] || [ "$(without_notes err)" != "$errors" ]; then
        complain "recall $*: status $ended, wanted $status; $(cat out err)"
    fi
}

# document SITE: the site ships the item `crate` to the next site and to the one after that, the last ones to the first
document() {
    local one=$((($1 + 1) % sites)) two=$((($1 + 2) % sites))
    printf '{"type":"EPCISDocument","epcisBody":{"eventList":[{"type":"ObjectEvent","eventTime":"2024-05-01T08:00:00Z","eventTimeZoneOffset":"+00:00","action":"OBSERVE","epcList":["crate"],"destinationList":[{"type":"location","destination":"a%d"},{"type":"location","destination":"a%d"}]}]}}' "$one" "$two"
}

mkdir started
for ((n = 0; n < sites; n++)); do
    printf 'site s%d a%d\n' "$n" "$n"
done >list
wants 0 '' '' init started list
for ((n = 0; n < sites; n++)); do
    document "$n" >document.json
    wants 0 'captured 1 known 0 skipped 0' '' capture started "s$n" document.json
done
wants 0 'recall s0#1 new 1 messages 2 open' '' start started s0 crate
wants 0 'open s0#1' '' audit started

# ended FOLDER: further runs end the recall, and then its quarantine is what its root reaches
ended() {
    local tries
    for ((tries = 0; tries < 20; tries++)); do
        "$recall" run "$1" >out 2>err </dev/null || complain "a run: $(cat out err)"
        [ "$(cat out)" = 's0#1 ended' ] && break
    done
    wants 0 's0#1 ended' '' run "$1"
    wants 0 "equal s0#1 pairs $sites" '' audit "$1"
}

echo "a recall over $sites sites"
cp -r started whole
begun=$(date +%s%N)
"$recall" run whole >out 2>err </dev/null || complain "the first run: $(cat out err)"
spent=$((($(date +%s%N) - begun) / 1000))
echo "  $(cat out), after $((spent / 1000)) milliseconds"
ended whole

echo "bad numbers of turns"
for turns in 0 1000001 x; do
    "$recall" run whole --turns "$turns" >out 2>err </dev/null
    [ $? = 2 ] && [ ! -s out ] && [ -s err ] || complain "turns $turns: $(cat out err)"
done
cp -r started few
on='a further `recall run` goes on with the recalls that are open'
wants 0 's0#1 open' "$on" run few --turns 1
ended few

echo "runs of few turns, one after another"
cp -r started rounds
wants 0 's0#1 ended' '' run rounds --turns 200 --until-ended
wants 0 "equal s0#1 pairs $sites" '' audit rounds

# So many messages take several runs of so few turns: one run leaves recalls open, and those of --until-ended don't.
echo "runs until 700 recalls have ended"
mkdir many
wants 0 '' '' init many list
for ((n = 0; n < 700; n++)); do printf 'crate-%d\n' "$n"; done >crates
items=$(sed 's/.*/"&"/' crates | paste -s -d ,)
printf '{"type":"ObjectEvent","eventID":"urn:uuid:7a","eventTime":"2024-05-01T08:00:00Z","eventTimeZoneOffset":"+00:00","action":"OBSERVE","epcList":[%s],"destinationList":[{"type":"location","destination":"a1"}]}' "$items" >document.json
wants 0 'captured 1 known 0 skipped 0' '' capture many s0 document.json
"$recall" start many s0 --from crates >out 2>err || complain "recall start many: $(cat err)"
"$recall" run many --turns 300 --exit-code >out 2>err
[ $? = 5 ] || complain "one run of 300 turns ends 700 recalls"
"$recall" run many --turns 300 --until-ended --exit-code >out 2>err || complain "recall run many --until-ended: $(tail -n 1 out; cat err)"
[ "$(grep -c ' ended$' out)" = 700 ] || complain "recall run many --until-ended: $(grep -c ' ended$' out) recalls have ended"

# A file may have 1,024 bytes: what a step writes to its log is more, so nothing can be kept.
echo "a run whose files may not grow"
rm -rf full && cp -r started full
(
    trap '' XFSZ
    ulimit -f 1
    exec "$recall" run full --turns 40 >out 2>err </dev/null
)
[ "$?:$(cat out)" = '0:s0#1 open' ] || complain "a run whose files may not grow: $(cat out err)"
# s0 has its messages to s1 and s2, which alone had something to keep
sed -E 's/ stopped ([0-9]+ times|once): / stopped: /' err >told
printf 'site %s stopped: Device\nfile full/%s.db: disk I/O error\n' s1 s1 s2 s2 | cat - <(echo "$on") | cmp -s - told ||
    complain "a run whose files may not grow: $(cat err)"
# nothing moves in the first of such runs, so it is the last one
(
    trap '' XFSZ
    ulimit -f 1
    exec "$recall" run full --turns 40 --until-ended >out 2>err </dev/null
)
[ "$?:$(cat out)" = '0:s0#1 open' ] || complain "runs whose files may not grow: $(cat out err)"
wants 0 'open s0#1' '' audit full
ended full

# As another user, who may have so many processes: then the sites share threads. Only root can become another user.
if [ "$(id -u)" = 0 ] && command -v setpriv >/dev/null && command -v prlimit >/dev/null; then
    user=54321
    chmod 711 "$work"
    cp "$recall" alone && chmod 755 alone
    for processes in 1 5; do
        echo "a run of $processes threads"
        rm -rf shared && cp -r started shared && chown -R "$user" shared
        setpriv --reuid="$user" --clear-groups prlimit --nproc="$processes" ./alone run shared >out 2>err </dev/null
        [ "$?:$(cat out)" = '0:s0#1 ended' ] || complain "a run of $processes threads: $(cat out err)"
        [ "$(cat err)" = 'the system gave fewer threads than sites, so sites took turns' ] ||
            complain "a run of $processes threads: $(cat err)"
        chown -R 0 shared
        wants 0 "equal s0#1 pairs $sites" '' audit shared
    done
fi

# items FROM TO: their texts, as the members of a list
items() {
    awk -v from="$1" -v to="$2" 'BEGIN { for (i = from; i < to; i++) printf "%s\"i%d\"", (i > from ? "," : ""), i }'
}

# Sites in a row, each of which ships its items to the next one. Nothing but a terminal is told how a run goes.
echo "a run that a terminal is told of"
mkdir long
head -4 list >four
wants 0 '' '' init long four
times='"eventTime":"2024-05-01T08:00:00Z","eventTimeZoneOffset":"+00:00"'
texts=$(items 0 1000)
printf '{"type":"TransformationEvent",%s,"inputEPCList":["x"],"outputEPCList":[%s]}' "$times" "$texts" >document.json
wants 0 'captured 1 known 0 skipped 0' '' capture long s0 document.json
for ((n = 0; n < 3; n++)); do
    printf '{"type":"ObjectEvent",%s,"action":"OBSERVE","epcList":[%s],"destinationList":[{"type":"location","destination":"a%d"}]}' "$times" "$texts" $((n + 1)) >document.json
    wants 0 'captured 1 known 0 skipped 0' '' capture long "s$n" document.json
done
wants 0 'recall s0#1 new 1001 messages 1000 open' '' start long s0 x
if script -qec true /dev/null >/dev/null 2>&1 </dev/null; then
    begun=$(date +%s)
    script -qefc "$(printf '%q run long --turns 1000000 >told' "$recall")" /dev/null >seen </dev/null || complain "a run at a terminal: $(cat seen)"
    lasted=$(($(date +%s) - begun))
    [ "$(cat told)" = 's0#1 ended' ] || complain "a run at a terminal: $(cat told)"
    lines=$(tr -d '\r' <seen | grep -cE '^turns [0-9]+ messages [0-9]+ open$')
    [ "$lines" = "$(wc -l <seen)" ] || complain "a terminal was told: $(cat seen)"
    [ "$lines" -gt 0 ] || [ "$lasted" -lt 4 ] || complain "a terminal was told nothing for $lasted seconds"
    echo "  $lines lines in $lasted seconds"
fi

echo "$stops stops of a run"
open=0
for ((n = 0; n < stops; n++)); do
    rm -rf stopped && cp -r started stopped
    moment=$((spent * n / stops))
    "$recall" run stopped >/dev/null 2>&1 &
    sleep "$(printf '%d.%06d' $((moment / 1000000)) $((moment % 1000000)))"
    kill -9 $! 2>/dev/null
    wait $! 2>/dev/null
    "$recall" audit stopped >out 2>err
    case "$?:$(cat out)$(cat err)" in
    '0:open s0#1') open=$((open + 1)) ;;
    "0:equal s0#1 pairs $sites") ;;
    *) complain "audit after a stop: $(cat out err)" ;;
    esac
    ended stopped
done
echo "  the recall was open after $open of them"

echo "two runs of one folder at once"
refused=0
for ((n = 0; n < 10; n++)); do
    rm -rf twice && cp -r started twice
    "$recall" run twice >out1 2>err1 </dev/null &
    "$recall" run twice >out2 2>err2 </dev/null
    second=$?
    wait $!
    first=$?
    case "$first $second" in
    '0 0') ;;
    '0 3') refused=$((refused + 1)); grep -q '^file twice/.*: in use by another program$' err2 || complain "the refused run: $(cat out2 err2)" ;;
    '3 0') refused=$((refused + 1)); grep -q '^file twice/.*: in use by another program$' err1 || complain "the refused run: $(cat out1 err1)" ;;
    '3 3') refused=$((refused + 1)) ;;
    *) complain "two runs: $first $second; $(cat out1 err1 out2 err2)" ;;
    esac
    ended twice
done
echo "  one was refused $refused times of 10"
[ "$refused" = 0 ] && complain "two runs never met"
[ "$failed" = 0 ] && echo "all as it should be"
exit "$failed"
