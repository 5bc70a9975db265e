#!/usr/bin/env bash
# Asks the built program the questions that change nothing, and compares its answers with those of a second program in python,
# which knows the events that were captured and nothing of how `recall` works:
# - trace, forward and back, of each item at each site of small random chains with shipments, pallets and transformations in
#   parts: the pairs, that each way is a shortest one, origins, what left the traced sites, --brief, and --events: the first
#   events that relate the pairs of each step; and what of the items is missed, and how many lie in the one that is traced;
# - packs: the events by which sites close packed gaps; and, on a copy, that none is left once they are captured, and that a trace finds
#   then what it misses before;
# - gaps: containers that a site shipped on and others packed, what was used without what lies in it, and what nobody saw come;
# - items, of each site: which there are, how often they are named, and those that contain a text; and what lies in each;
# - coverage: how many events and items each site has, and when the first and the last of its events happened;
# - status and audit while a recall is open and once it has ended, with --exit-code; a report beside a trace of its root;
# - gaps of a recall that has ended: what it misses, and which recall holds that;
# - what a run says that open recalls miss, and that it is withheld for that with --unless-gaps; and what an audit says that recalls miss;
# - start --dry-run, which tells what the start then does. No question changes a byte of a file.
# Run by hand, and by the gate on the program that it built. RECALL names another program. CHAINS is how many chains are made, 6
# where it isn't set. It ends with status 0 where all is as it should be.
set -u
here=$(cd "$(dirname "$0")/.." && pwd) || exit 2
recall=${RECALL:-}
if [ -z "$recall" ]; then
    "$here/recall" --help >/dev/null || exit 2
    recall="$here/crates/recall_cli/out/recall_cli"
fi
command -v python3 >/dev/null || {
    echo "python3 isn't installed: no answer is compared"
    exit 0
}
recall=$(realpath -e -- "$recall") || exit 2
work=$(mktemp -d) || exit 2
trap 'rm -rf "$work"' EXIT
cd "$work" || exit 2
RECALL=$recall CHAINS=${CHAINS:-6} python3 - <<'PYTHON'
import collections
import hashlib
import itertools
import json
import os
import random
import shutil
import subprocess
import sys

RECALL = os.environ["RECALL"]
SITES = ["north", "east-1", "south_2"]
answers = 0
beside = ""
asked = collections.Counter()
begun, named = collections.defaultdict(list), collections.defaultdict(list)


def ask(*words, status=0):
    """What the program prints for these words, which ends so."""
    global answers, beside
    answers += 1
    asked[words[0]] += 1
    ran = subprocess.run([RECALL, *words], capture_output=True, text=True, stdin=subprocess.DEVNULL)
    if ran.returncode != status:
        sys.exit(f"{' '.join(words)}: status {ran.returncode}, wanted {status}\n{ran.stdout}{ran.stderr}")
    beside = ran.stderr
    return ran.stdout


def same(what, told, wanted):
    if told != wanted:
        sys.exit(f"{what}\n  told   {told}\n  wanted {wanted}")


def fingerprint(folder):
    """The bytes of all files, but for the logs, which opening a database may write anew."""
    return {
        name: hashlib.sha256(open(f"{folder}/{name}", "rb").read()).hexdigest()
        for name in sorted(os.listdir(folder))
        if not name.endswith("-wal")
    }


def chain(number):
    """The events of each site of a chain, as documents and as they are meant."""
    rand = random.Random(number)
    items = [f"x{n}" for n in range(12)]
    some = lambda most: rand.sample(items, rand.randint(1, most))
    events = {site: [] for site in SITES}
    for site in SITES:
        for _ in range(rand.randint(8, 16)):
            kind = rand.choice(["ship", "ship", "make", "make", "part", "pack", "note"])
            others = [to for to in SITES if to != site]
            if kind == "ship":
                goes = rand.sample([*others, "out-1", "out-2"], rand.randint(1, 2))
                events[site].append({"kind": "ship", "items": some(2), "to": goes})
            elif kind == "make":
                events[site].append({"kind": "make", "id": None, "ins": some(2), "outs": some(2)})
            elif kind == "part":
                ins, outs = rand.choice([(some(2), []), ([], some(2)), (some(1), some(1))])
                events[site].append({"kind": "make", "id": rand.choice(["t1", "t2"]), "ins": ins, "outs": outs})
            elif kind == "pack":
                parent, *children = rand.sample(items, rand.randint(2, 4))
                events[site].append({"kind": "pack", "parent": parent, "children": children, "action": rand.choice(["ADD", "ADD", "DELETE"])})
            else:
                events[site].append({"kind": "note", "items": some(3)})
    return events


def time_of(name):
    """The time of an event, by its place in its document."""
    return f"2024-05-01T08:{int(name.rsplit('-', 1)[1]):02}:00Z"


def document(event, name):
    """An event as EPCIS has it."""
    common = {"eventID": f"ni:///{name}", "eventTime": time_of(name), "eventTimeZoneOffset": "+00:00"}
    if event["kind"] == "ship":
        to = [{"type": "location", "destination": f"at:{place}"} for place in event["to"]]
        return common | {"type": "ObjectEvent", "action": "OBSERVE", "epcList": event["items"], "destinationList": to}
    if event["kind"] == "note":
        return common | {"type": "ObjectEvent", "action": "OBSERVE", "epcList": event["items"]}
    if event["kind"] == "pack":
        return common | {"type": "AggregationEvent", "action": event["action"], "parentID": event["parent"], "childEPCs": event["children"]}
    made = common | {"type": "TransformationEvent", "inputEPCList": event["ins"], "outputEPCList": event["outs"]}
    return made | ({"transformationID": event["id"]} if event["id"] else {})


def names(event):
    return {*event.get("items", []), *event.get("ins", []), *event.get("outs", []), *event.get("children", []), *filter(None, [event.get("parent")])}


def inside(events, item):
    """The item, and what was ever put into it, and into that."""
    found, left = {item}, [item]
    while left:
        here = left.pop()
        for event in events:
            if event["kind"] == "pack" and event["action"] == "ADD" and event["parent"] == here:
                left += [child for child in event["children"] if child not in found]
                found |= set(event["children"])
    return found


def closed(starts, edges):
    """The items, and all that lies in them by these pairs of a container and an item."""
    found, left = set(starts), list(starts)
    while left:
        here = left.pop()
        more = {child for parent, child in edges if parent == here} - found
        found |= more
        left += more
    return found


def shipped(own, place):
    return {item for event in own if event["kind"] == "ship" and place in event["to"] for item in event["items"]}


def packed(own):
    return {(event["parent"], child) for event in own if event["kind"] == "pack" and event["action"] == "ADD" for child in event["children"]}


def edges_of(known):
    return {(parent, child) for parent, child, _ in known}


def knowing(events):
    """What is known at each site of packings, each with who packed: its own, and of each container that came what was known there."""
    known = {site: {(*edge, site) for edge in packed(events[site])} for site in SITES}
    grown = True
    while grown:
        grown = False
        for site, to in itertools.permutations(SITES, 2):
            came = closed(shipped(events[site], to), edges_of(known[site]))
            new = {it for it in known[site] if it[0] in came} - known[to]
            known[to] |= new
            grown = grown or bool(new)
    return known


def find_gaps(events):
    """The gaps: packed ones, used ones, unseen ones; and the missed items, each at a site."""
    known = knowing(events)
    gaps, used, unseen, missed = collections.defaultdict(set), collections.defaultdict(set), set(), set()
    for site, own in events.items():
        edges, mine = edges_of(known[site]), packed(own)
        for place in {place for event in own if event["kind"] == "ship" for place in event["to"]} - {site}:
            sent, told = closed(shipped(own, place), edges), closed(shipped(own, place), mine)
            missed |= {(site, item) for item in sent - told}
            for parent, child in edges - mine:
                if parent in sent and child not in told:
                    by = min(SITES.index(who) for p, c, who in known[site] if (p, c) == (parent, child))
                    gaps[site, parent, SITES[by]].add(child)
            if place in SITES:
                unseen |= {(place, item, site) for item in shipped(own, place) if not any(item in names(event) for event in events[place])}
        for event in own:
            if event["kind"] == "make":
                ins = set().union(*(e["ins"] for e in own if e is event or (e["kind"] == "make" and event["id"] and e["id"] == event["id"])))
                for container in ins:
                    for item in closed({container}, edges) - ins:
                        used[site, container].add(item)
    return gaps, used, unseen, missed


def find_unlinked(events):
    """The containers that a site shipped on and that another one packed from which they never came, each with what that put in and the
    site doesn't know of."""
    known, found = knowing(events), {}
    for site, own in events.items():
        places = {place for event in own if event["kind"] == "ship" for place in event["to"]} - {site}
        sent = set().union(*(closed(shipped(own, place), edges_of(known[site])) for place in places))
        for who, container in itertools.product(SITES, sent):
            children = {child for parent, child in packed(events[who]) - edges_of(known[site]) if parent == container}
            if children:
                found[site, container, who] = children
    return found


def moments(events, site, container, by):
    """When a site first packed something into a container, and when another one last shipped it on."""
    edges = edges_of(knowing(events)[site])
    fills = lambda event: event["kind"] == "pack" and event["action"] == "ADD" and event["parent"] == container
    ships = lambda event: event["kind"] == "ship" and set(event["to"]) - {site} and container in closed(event["items"], edges)
    first = next(n for n, event in enumerate(events[by]) if fills(event))
    last = max(n for n, event in enumerate(events[site]) if ships(event))
    return {"packed_at": time_of(f"{by}-{first}"), "shipped_at": time_of(f"{site}-{last}")}


def gaps(folder, events):
    found, used, unseen, _ = find_gaps(events)
    unlinked = find_unlinked(events)
    place = lambda it: (SITES.index(it[0]), key(it[1]), SITES.index(it[2]) if it[2:] else 0)
    lines = [f"gap packed {s} {key(p)} by {by} items {len(found[s, p, by])}" for s, p, by in sorted(found, key=place)]
    lines += [f"gap used {s} {key(c)} items {len(used[s, c])}" for s, c in sorted(used, key=place)]
    lines += [f"gap unseen {s} {key(i)} from {u}" for s, i, u in sorted(unseen, key=place)]
    items = sum(map(len, found.values()))
    lines += [f"total packed {len(found)} items {items} used {len(used)} unseen {len(unseen)}"]
    same(f"gaps {folder}", ask("gaps", folder).splitlines(), lines)
    same("gaps: what is advised", "past the site" in beside, bool(found))
    same("gaps: what is counted", [line for line in beside.splitlines() if line.startswith("unlinked ")], [f"unlinked {len(unlinked)}"] * bool(unlinked))
    more = [f"gap unlinked {s} {key(p)} by {by} items {len(unlinked[s, p, by])}" for s, p, by in sorted(unlinked, key=place)]
    same(f"gaps {folder} --all", ask("gaps", folder, "--all").splitlines(), [*lines[:-1], *more, f"{lines[-1]} unlinked {len(unlinked)}"])
    same("gaps --all: what is counted", "unlinked" in beside, False)
    wanted = {
        "items": items,
        "lots": [],
        "packed": [{"by": by, "item": key(p), "items": len(found[s, p, by]), "site": s} | moments(events, s, p, by) for s, p, by in sorted(found, key=place)],
        "unlinked": None,
        "unseen": [{"from": u, "item": key(i), "site": s} for s, i, u in sorted(unseen, key=place)],
        "used": [{"item": key(c), "items": len(used[s, c]), "site": s} for s, c in sorted(used, key=place)],
    }
    same(f"gaps {folder} --json", json.loads(ask("gaps", folder, "--json", "--exit-code", status=5 if found or used or unseen else 0)), wanted)
    wanted["unlinked"] = [{"by": by, "item": key(p), "items": len(unlinked[s, p, by]), "site": s} for s, p, by in sorted(unlinked, key=place)]
    same(f"gaps {folder} --all --json", json.loads(ask("gaps", folder, "--all", "--json")), wanted)


def closing(site, events):
    """The events by which a site closes its packed gaps, by the names of their documents."""
    known, found = knowing(events)[site], find_gaps(events)[0]
    gap = {(parent, child) for where, parent, by in found if where == site for child in found[where, parent, by]}
    closes = lambda who, e: any((e["parent"], child) in gap and (e["parent"], child, who) in known for child in e["children"])
    packs = [(who, place, e) for who in SITES for place, e in enumerate(events[who]) if e["kind"] == "pack" and e["action"] == "ADD"]
    return [f"ni:///{who}-{place}" for who, place, e in packs if closes(who, e)]


def packs(folder, events):
    """The documents of these events; and that no gap is left once they are captured, on a copy, where nothing was refused."""
    copy = f"{folder}.closed"
    shutil.copytree(folder, copy)
    names_in = lambda text: [json.loads(line)["epcisBody"]["eventList"][0]["eventID"] for line in text.splitlines()]
    same(f"packs {folder}", names_in(ask("packs", folder, "--dry-run")), [name for site in SITES for name in closing(site, events)])
    root = (SITES[0], sorted(set().union(*map(names, events[SITES[0]])))[0])
    captured = []
    for site in SITES:
        text = ask("packs", folder, "--site", site, "--dry-run")
        wanted = closing(site, events)
        same(f"packs {folder} --site {site}", names_in(text), wanted)
        same(f"packs {folder} --site {site} --json", ask("packs", folder, "--site", site, "--dry-run", "--json"), text)
        captured += [f"captured 1 known 0 skipped 0 {site} from {name[6:].rsplit('-', 1)[0]}" for name in wanted]
        captured += [f"documents {len(wanted)} captured {len(wanted)} known 0 skipped 0 refused 0"] * bool(wanted)
    told = ask("packs", copy).splitlines()
    same(f"captured packs {copy}", [line.rsplit(" ", 2)[0] if line.startswith("captured") else line for line in told], captured)
    same(f"packs {copy}", ask("packs", copy) + ask("packs", copy, "--dry-run"), "")
    same(f"gaps {copy}", ask("gaps", copy).splitlines()[-1].split(" used ")[0], "total packed 0 items 0")
    _, ways, _ = read_trace(ask("trace", copy, *root, "--brief"))
    same(f"trace {copy}", {way[0] for way in ways}, set(steps(relate(events, knowing(events))[0], root)))


def missed_by(folder, events, root):
    """What a recall of the root misses: the pairs that it reaches by all that is known of packings and not by the sites' own ones, each
    with a recall that holds it; and what so left the traced sites, and no report of a recall tells."""
    (related, out), (further, far) = relate(events), relate(events, knowing(events))
    near, wide = set(steps(related, root)), set(steps(further, root))
    place = lambda it: (SITES.index(it[0]), key(it[1]), *it[2:])
    order = lambda name: (SITES.index(name.split("#")[0]), int(name.split("#")[1]))
    held = {pair: min((name for name, begin in named[folder] if pair in set(steps(related, begin))), key=order, default=None) for pair in wide - near}
    told = near.union(*(steps(related, begin) for _, begin in named[folder]))
    return {pair: held[pair] for pair in sorted(held, key=place)}, [it for it in sorted(far, key=place) if it[:2] in wide and not (it in out and it[:2] in told)]


def misses(folder, events, recall, root):
    """What a recall misses."""
    held, left = missed_by(folder, events, root)
    place = lambda it: (SITES.index(it[0]), key(it[1]), *it[2:])
    lines = [f"gap missed {s} {key(i)}" + (f" held by {held[s, i]}" if held[s, i] else "") for s, i in sorted(held, key=place)]
    lines += [f"gap left {s} {key(i)} at:{to}" for s, i, to in left]
    lines += [f"total missed {len(held)} held {sum(map(bool, held.values()))} left {len(left)}"]
    same(f"gaps {folder} {recall}", ask("gaps", folder, recall).splitlines(), lines)
    wanted = {
        "left": [{"destination": f"at:{to}", "item": key(i), "site": s} for s, i, to in left],
        "missed": [{"held_by": held[s, i], "item": key(i), "site": s} for s, i in sorted(held, key=place)],
        "recall": recall,
    }
    status = 5 if left or None in held.values() else 0
    same(f"gaps {folder} {recall} --json", json.loads(ask("gaps", folder, recall, "--json", "--exit-code", status=status)), wanted)


def hold_missed(what, pairs, missed):
    """On the error stream stands how many of the pairs are missed at each site."""
    counts = collections.Counter(site for site, _ in missed & set(pairs))
    told = [line for line in beside.splitlines() if line.startswith("missed ")]
    same(f"{what}: what is missed", told, [f"missed {counts[site]} at {site}" for site in SITES if counts[site]])


def hold_reach(what, folder, events, root, pairs):
    """Behind that stands in how many containers they went, how much of the root isn't told by that, and which recalls hold it."""
    found, _, _, missed = find_gaps(events)
    here, known = missed & set(pairs), knowing(events)
    touched = lambda site, children: any((site, item) in here for child in children for item in closed({child}, edges_of(known[site])))
    place = lambda it: (SITES.index(it[0]), key(it[1]), SITES.index(it[2]))
    counts = collections.Counter((site, by) for site, parent, by in sorted(found, key=place) if touched(site, found[site, parent, by]))
    wanted = [f"containers {count} at {site} by {by}" for (site, by), count in counts.items()]
    held, left = missed_by(folder, events, root) if here else ({}, [])
    wanted += [f"untold pairs {list(held.values()).count(None)} outside {len(left)}"] * bool(held or left)
    wanted += [f"held by {recall} {count}" for recall, count in collections.Counter(filter(None, held.values())).items()]
    same(f"{what}: what isn't told", [line for line in beside.splitlines() if line.split(" ")[0] in ("containers", "untold", "held")], wanted)


def lying_in(events, item):
    """What any site put into the item, and into that."""
    edges = set().union(*map(packed, events.values()))
    return closed({child for parent, child in edges if parent == item}, edges)


def hold_inside(what, events, item):
    """On the error stream stands how many items lie in this one."""
    count = len(lying_in(events, item))
    told = [line for line in beside.splitlines() if line.startswith("inside ")]
    same(f"{what}: what lies in it", told, [f"inside {count}"] if count else [])


def contents(folder, events):
    """What lies in each item that a site knows."""
    for site in SITES:
        counts = collections.Counter(itertools.chain.from_iterable(map(names, events[site])))
        for item in sorted(counts):
            lie = sorted(map(key, lying_in(events, item)))
            for text in ("", "x1"):
                told = [it for it in lie if text in it]
                wanted = [f"item {site} {it} events {counts[it[4:]]}" for it in told] + [f"total {len(told)}"]
                given = ["--in", item] if text else ["--in", key(item), "--key"]
                same(f"items {site} {text} --in {item}", ask("items", folder, site, *([text] if text else []), *given).splitlines(), wanted)
        same("an unknown item", ask("items", folder, site, "--in", "x99", status=1), "refused UnknownItem\n")
        same("no EPC", ask("items", folder, site, "--in", "x 1", status=1), "refused BadEpc\n")
    same("a site that isn't listed", ask("items", folder, "west", "--in", "x1", status=1), "refused NoSite west\n")


def coverage(folder, events):
    wanted = []
    for site in SITES:
        times = sorted(time_of(f"{site}-{n}") for n in range(len(events[site])))
        known = set().union(set(), *map(names, events[site]))
        wanted.append({"events": len(times), "first": times[0] if times else None, "items": len(known), "last": times[-1] if times else None, "site": site})
    lines = [f"site {it['site']} events {it['events']} items {it['items']} first {it['first'] or '-'} last {it['last'] or '-'}" for it in wanted]
    same(f"coverage {folder}", ask("coverage", folder).splitlines(), lines)
    same(f"coverage {folder} --json", [json.loads(line) for line in ask("coverage", folder, "--json").splitlines()], wanted)


def relate(events, known=None):
    """What each pair is related to, and what was shipped out of the traced sites: by the sites' own packings, or by what is known of packings."""
    related, out = collections.defaultdict(set), set()
    for site, own in events.items():
        for event in own:
            if event["kind"] == "ship":
                goods = closed(event["items"], edges_of(known[site])) if known else set().union(*(inside(own, it) for it in event["items"]))
                for item in goods:
                    for place in event["to"]:
                        if place in SITES:
                            if place != site:
                                related[site, item].add((place, item))
                        else:
                            out.add((site, item, place))
            elif event["kind"] == "make":
                for other in own:
                    if other is event or (other["kind"] == "make" and event["id"] and other["id"] == event["id"]):
                        for came, went in itertools.product(event["ins"], other["outs"]):
                            related[site, came].add((site, went))
    return related, out


def steps(related, root):
    """Each pair that chains lead to, with how many pairs a shortest one has."""
    far, left = {root: 1}, [root]
    for pair in left:
        for target in related[pair]:
            if target not in far:
                far[target] = far[pair] + 1
                left.append(target)
    return far


def key(item):
    return f"uri {item}"


def pair(words):
    site, form, item = words
    same("the form of an item", form, "uri")
    return site, item


def read_trace(text):
    """A trace as it is printed: its head, its pairs with their ways, its other lines."""
    head, ways, rest = None, [], []
    for line in text.splitlines():
        words = line.split()
        if line.startswith("  "):
            same("the place of a step", int(words[0]), len(ways[-1][1]) + 1)
            ways[-1][1].append(pair(words[1:]))
        elif words[0] == "trace":
            head = (words[1], pair(words[2:]))
        elif words[0] == "pair":
            ways.append((pair(words[1:4]), [], (words[4], pair(words[5:])) if words[4:] else None))
        else:
            rest.append(words)
    return head, ways, rest


def in_order(pairs):
    return sorted(pairs, key=lambda it: (SITES.index(it[0]), key(it[1])))


def hold_ways(what, ways, wanted, related, back):
    """The ways are those of the pairs that are wanted, in order, each a shortest chain of related pairs."""
    same(f"{what}: pairs", [it[0] for it in ways], in_order(wanted))
    for found, way, _ in ways:
        same(f"{what}: the length of the way of {found}", len(way), wanted[found])
        same(f"{what}: its ends", way[0 if back else -1], found)
        for first, second in zip(way, way[1:]):
            if second not in related[first]:
                sys.exit(f"{what}: {first} isn't related to {second}")


def hold_brief(what, text, ways, back):
    """With --brief each pair has the step beside it."""
    _, brief, _ = read_trace(text)
    wanted = [(found, ("to" if back else "from", way[1 if back else -2]) if len(way) > 1 else None) for found, way, _ in ways]
    same(f"{what} --brief", [(found, beside) for found, _, beside in brief], wanted)


def hold_json(what, text, ways, back):
    """The same as JSON."""
    told = json.loads(text)
    same(f"{what} --json", told["trace"], "back" if back else "forward")
    same(f"{what} --json: ways", [[(it["site"], it["item"]) for it in p["trail"]] for p in told["pairs"]], [[(s, key(i)) for s, i in way] for _, way, _ in ways])


def relating(events, first, second):
    """The first events that relate two pairs: their kind, and their places at the site of the first one."""
    (site, item), (to, went) = first, second
    own = events[site]
    if to != site:
        ships = lambda event: event["kind"] == "ship" and to in event["to"] and any(item in inside(own, it) for it in event["items"])
        return "shipped", [next(n for n, event in enumerate(own) if ships(event))]
    gives = lambda event, other: other["kind"] == "make" and went in other["outs"] and (other is event or (event["id"] and other["id"] == event["id"]))
    takes = lambda event: event["kind"] == "make" and item in event["ins"] and any(gives(event, other) for other in own)
    taken = next(n for n, event in enumerate(own) if takes(event))
    return "made", [taken, next(n for n, other in enumerate(own) if gives(own[taken], other))]


def packings(events, site, item, place):
    """How an item came to lie in what an event of the site ships to another one: each thing that it was put into, from the item on
    outwards, with the first event that did so. By as few as lead to what is told to be shipped: the item, or else the first by key."""
    own = events[site]
    event = own[relating(events, (site, item), (place, item))[1][0]]
    carriers = [it for it in event["items"] if item in inside(own, it)]
    carrier = item if item in carriers else min(carriers, key=lambda it: key(it).encode())
    puts = lambda e, inner, outer: e["kind"] == "pack" and e["action"] == "ADD" and e["parent"] == outer and inner in e["children"]
    around = collections.defaultdict(set)
    for inner, outer in {(child, parent) for parent, child in packed(own)}:
        around[inner].add(outer)
    return steps(around, item)[carrier] - 1, carrier, lambda inner, outer: next(n for n, e in enumerate(own) if puts(e, inner, outer))


def hold_packings(what, events, site, item, place, told):
    """The packings that are told are such, by pairs of what the item was put into and the event's number."""
    count, carrier, first = packings(events, site, item, place)
    same(f"{what}: how many packings", len(told), count)
    same(f"{what}: what was shipped", told[-1][0] if told else key(item), key(carrier))
    for (inner, _), (outer, number) in zip([(key(item), 0), *told], told):
        same(f"{what}: a packing", number, first(inner[4:], outer[4:]) + 1)


def leaving(events, site, item, place):
    """The first event of the site that ships the item, or what it lies in, to a place, and what of that event it left with."""
    own = events[site]
    carriers = lambda event: [it for it in event["items"] if item in inside(own, it)] if event["kind"] == "ship" and place in event["to"] else []
    n = next(n for n, event in enumerate(own) if carriers(event))
    return n, item if item in carriers(own[n]) else min(carriers(own[n]), key=lambda it: key(it).encode())


def hold_events(what, text, ways, events, gone=()):
    """With --events the first events that relate its pair to the one before stand behind each pair of a way, and behind a shipment how
    the item came to lie in what was shipped; and behind each shipment out of the traced sites the first event that shows it."""
    told = text.splitlines()[:0:-1]

    def expect(line):
        same(f"{what} --events", told.pop() if told else None, line)

    def expect_event(site, n, words):
        expect(f"    by {n + 1} ni:///{site}-{n} {time_of(f'{site}-{n}')} {words}")

    for found, way, _ in ways:
        expect(f"pair {found[0]} {key(found[1])}")
        for place, it in enumerate(way):
            expect(f"  {place + 1} {it[0]} {key(it[1])}")
            if place > 0:
                site, item = way[place - 1]
                kind, places = relating(events, way[place - 1], it)
                for n in sorted(set(places), key=places.index):
                    expect_event(site, n, kind)
                packs = []
                while kind == "shipped" and told and " packed into " in told[-1]:
                    into, number = told[-1].split(" packed into ")[1], int(told[-1].split()[1])
                    expect_event(site, number - 1, f"packed into {into}")
                    packs.append((into, number))
                if kind == "shipped":
                    hold_packings(what, events, site, item, it[0], packs)
    for site, item, place in gone:
        n, carrier = leaving(events, site, item, place)
        expect(f"outside {site} {key(item)} at:{place}")
        expect_event(site, n, "shipped" + ("" if carrier == item else f" in {key(carrier)}"))


def hold_events_json(what, text, ways, events, gone):
    """The same as JSON, of brief ways: of each pair the step beside it."""

    def event(site, n):
        return {"id": f"ni:///{site}-{n}", "number": n + 1, "time": time_of(f"{site}-{n}")}

    def step(first, second):
        kind, places = relating(events, first, second)
        told = [event(first[0], n) for n in places]
        return {"event": told[0], "kind": kind} if kind == "shipped" else {"input": told[0], "kind": kind, "output": told[1]}

    wanted = [[step(way[-2], way[-1])] if len(way) > 1 else [] for _, way, _ in ways]
    told = json.loads(text)
    for (_, way, _), shown in zip(ways, told["pairs"]):
        for it in shown["events"]:
            if it["kind"] == "shipped":
                site, item = way[-2]
                packs = it.pop("packings")
                same(f"{what} --events --json: packings", [p["event"] for p in packs], [event(site, p["event"]["number"] - 1) for p in packs])
                hold_packings(what, events, site, item, way[-1][0], [(p["into"], p["event"]["number"]) for p in packs])
    same(f"{what} --events --brief --json", [p["events"] for p in told["pairs"]], wanted)
    left = []
    for site, item, place in gone:
        n, carrier = leaving(events, site, item, place)
        left.append({"carrier": key(carrier), "destination": f"at:{place}", "event": event(site, n), "item": key(item), "site": site})
    same(f"{what} --events --brief --json: outside", told["outside"], left)


def trace(folder, events):
    related, out = relate(events)
    _, _, _, missed = find_gaps(events)
    converse = collections.defaultdict(set)
    for first, targets in list(related.items()):
        for second in targets:
            converse[second].add(first)
    for site in SITES:
        known = set().union(set(), *map(names, events[site]))
        for item in sorted(known):
            root = (site, item)
            what = f"trace {folder} {site} {item}"
            text = ask("trace", folder, site, item)
            head, ways, rest = read_trace(text)
            wanted = steps(related, root)
            hold_missed(what, wanted, missed)
            hold_inside(what, events, item)
            hold_reach(what, folder, events, root, wanted)
            same(f"{what}: head", head, ("forward", root))
            hold_ways(what, ways, wanted, related, False)
            gone = [it for it in sorted(out, key=lambda it: (SITES.index(it[0]), key(it[1]), it[2])) if it[:2] in wanted]
            left = [["outside", s, "uri", i, f"at:{place}"] for s, i, place in gone]
            same(f"{what}: the rest", rest, [*left, ["total", str(len(wanted)), "outside", str(len(left))]])
            hold_contents(what, ask("trace", folder, site, item, "--contents"), events, related, out, root, missed)
            text_back = ask("trace", folder, site, item, "--back")
            head, ways_back, rest = read_trace(text_back)
            wanted = steps(converse, root)
            same(f"{what} --back: head", head, ("back", root))
            hold_ways(f"{what} --back", ways_back, wanted, related, True)
            origins = [["origin", s, "uri", i] for s, i in in_order(wanted) if not converse[s, i]]
            same(f"{what} --back: the rest", rest, [*origins, ["total", str(len(wanted)), "origins", str(len(origins))]])
            if item in ("x1", "x2"):
                hold_brief(what, ask("trace", folder, site, item, "--brief"), ways, False)
                same(f"{what} --key", ask("trace", folder, site, "--key", f"uri {item}"), text)
                hold_brief(f"{what} --back", ask("trace", "--back", "--brief", folder, site, item), ways_back, True)
                hold_json(what, ask("trace", "--json", folder, site, item), ways, False)
                hold_json(f"{what} --back", ask("trace", "--json", "--back", folder, site, item), ways_back, True)
                hold_events(what, ask("trace", "--events", folder, site, item), ways, events, gone)
                hold_events(f"{what} --back", ask("trace", "--events", "--back", folder, site, item), ways_back, events)
                hold_events_json(what, ask("trace", "--events", "--brief", "--json", folder, site, item), ways, events, gone)
        same("an unknown item", ask("trace", folder, site, "x99", status=1), "refused UnknownItem\n")
        same("an unknown item", ask("trace", folder, site, "x99", "--back", status=1), "refused UnknownItem\n")
    same("a site that isn't listed", ask("trace", folder, "west", "x1", status=1), "refused NoSite west\n")
    same("no EPC", ask("trace", folder, "north", "x 1", status=1), "refused BadEpc\n")
    same("no key", ask("trace", folder, "north", "x1", "--key", status=1), "refused BadKey\n")
    same("no scan", ask("trace", folder, "north", "x1", "--scan", status=1), "refused BadScan NoElements\n")


def hold_contents(what, text, events, related, out, root, missed):
    """With --contents also stands what those items reach that lie in it, at its site."""
    all_of_them = {**related, root: related[root] | {(root[0], item) for item in lying_in(events, root[1])}}
    wider = collections.defaultdict(set, all_of_them)
    head, ways, rest = read_trace(text)
    wanted = steps(wider, root)
    hold_missed(f"{what} --contents", wanted, missed)
    same(f"{what} --contents: head", head, ("forward", root))
    hold_ways(f"{what} --contents", ways, wanted, wider, False)
    gone = [it for it in sorted(out, key=lambda it: (SITES.index(it[0]), key(it[1]), it[2])) if it[:2] in wanted]
    left = [["outside", s, "uri", i, f"at:{place}"] for s, i, place in gone]
    same(f"{what} --contents: the rest", rest, [*left, ["total", str(len(wanted)), "outside", str(len(left))]])
    same(f"{what} --contents: what lies in it", "inside " in beside, False)


def list_items(folder, events, quarantined):
    for site in SITES:
        for text in ("", "x1", "11", "uri x", "nothing"):
            counts = collections.Counter(itertools.chain.from_iterable(map(names, events[site])))
            known = {*counts, *(item for at, item in quarantined if at == site)}
            told = sorted(key(item) for item in known if text in key(item))
            wanted = [f"item {site} {it} events {counts[it[4:]]}" for it in told] + [f"total {len(told)}"]
            same(f"items {site} '{text}'", ask("items", folder, site, *([text] if text else [])).splitlines(), wanted)
            as_json = [json.loads(line) for line in ask("items", "--json", folder, site, text).splitlines()]
            same("items --json", as_json, [{"events": counts[it[4:]], "item": it, "site": site} for it in told])
    same("a site that isn't listed", ask("items", folder, "west", status=1), "refused NoSite west\n")


def read_status(line):
    words = line.split()
    same("a line of status", [words[2], words[3], words[5], words[7]], ["root", "uri", "quarantined", "waiting"])
    return words[0], words[1], words[4], int(words[6]), int(words[8])


def hold_detail(folder, recall):
    """How a recall stands adds up, and is what the list of all says."""
    listed = {read_status(line)[0]: line for line in ask("status", folder).splitlines()}
    first, *rest = ask("status", folder, recall).splitlines()
    same(f"status {recall}", first, listed[recall])
    _, state, _, quarantined, waiting = read_status(first)
    sites = [line.split() for line in rest if line.startswith("site ")]
    messages = [line.split() for line in rest if line.startswith("waiting ")]
    same("lines of status", len(rest), len(sites) + len(messages))
    same("sites add up", sum(int(it[3]) for it in sites), quarantined)
    same("messages add up", (sum(int(it[5]) for it in sites), len(messages)), (waiting, waiting))
    told = json.loads(ask("status", "--json", folder, recall))
    same("status --json", (told["ended"], told["quarantined"], told["waiting"], len(told["messages"]), len(told["sites"])), (state == "ended", quarantined, waiting, len(messages), len(sites)))
    same("messages --json", [(it["message"], it["to"], it["item"], "told" if it["told"] else "untold") for it in told["messages"]], [(it[1], it[3], " ".join(it[4:6]), it[6]) for it in messages])
    is_open = state == "open"
    ask("status", folder, recall, "--exit-code", status=5 if is_open else 0)
    ask("status", folder, "--exit-code", status=5 if any(read_status(line)[1] == "open" for line in listed.values()) else 0)
    return state, quarantined, waiting, messages


def recall_one(folder, events, site, item):
    """A recall, from what its start would do to its end."""
    before = fingerprint(folder)
    would = ask("start", folder, site, item, "--dry-run").split()
    reached, missed = steps(relate(events)[0], (site, item)), find_gaps(events)[3]
    hold_missed("a dry start", reached, missed)
    hold_inside("a dry start", events, item)
    hold_reach("a dry start", folder, events, (site, item), reached)
    same("a dry start", fingerprint(folder), before)
    did = ask("start", folder, site, item).split()
    hold_inside("a start", {site: events[site]}, item)
    same("what the start would do", would[2:6], did[2:6])
    recall = did[1]
    state, quarantined, waiting, messages = hold_detail(folder, recall)
    same("a start", (state, quarantined, waiting), (did[6], int(did[3]), int(did[5])))
    if any(it[6] != "untold" for it in messages):
        sys.exit(f"a message is told before a run: {messages}")
    if state == "open" and missed & set(reached):
        before = fingerprint(folder)
        same("a run that is withheld", ask("run", folder, "--unless-gaps", status=5), "withheld\n")
        hold_missed("a run that is withheld", reached, missed)
        same("a run that is withheld --json", ask("run", folder, "--unless-gaps", "--json", status=5), '{"withheld":true}\n')
        same("files after that", fingerprint(folder), before)
        more = []
    else:
        more = ["--unless-gaps"]
    for turns in [2] * 5 + [2000] * 20:
        was = state
        ran = ask("run", folder, "--turns", str(turns), *more).splitlines()
        hold_missed("a run", reached if was == "open" else [], missed)
        state, *_ = hold_detail(folder, recall)
        same("status and run", f"{recall} {state}" in ran, True)
        ask("audit", folder, "--exit-code", status=5 if state == "open" else 0)
        if state == "ended":
            break
    same("the end", hold_detail(folder, recall)[0::2], ("ended", 0))
    ask("run", folder, "--exit-code")
    begun[folder].append((site, item))
    named[folder].append((recall, (site, item)))
    for name, root in named[folder]:
        misses(folder, events, name, root)
    led = set().union(*(steps(relate(events)[0], root) for root in begun[folder]))
    audit = ask("audit", folder)
    hold_missed("an audit", led, missed)
    same("an audit of what has ended", ask("audit", folder, "--ended"), audit)
    hold_missed("an audit of what has ended", led, missed)
    report = ask("report", folder, recall).splitlines()
    hold_missed(f"report {recall}", steps(relate(events)[0], (site, item)), find_gaps(events)[3])
    hold_inside(f"report {recall}", events, item)
    hold_reach(f"report {recall}", folder, events, (site, item), steps(relate(events)[0], (site, item)))
    traced = ask("trace", folder, site, item).splitlines()
    same("a report and a trace", report[1:], traced[1:])
    same("a report and a trace --brief", ask("report", folder, recall, "--brief").splitlines()[1:], ask("trace", folder, site, item, "--brief").splitlines()[1:])
    return {(s, i) for s, i in steps(relate(events)[0], (site, item))}


for number in range(int(os.environ["CHAINS"])):
    folder = f"chain{number}"
    os.mkdir(folder)
    with open(f"{folder}.sites", "w") as file:
        file.writelines(f"site {site} at:{site}\n" for site in SITES)
    ask("init", folder, f"{folder}.sites")
    same("status without a recall", ask("status", folder, "--exit-code"), "")
    events = chain(number)
    for site in SITES:
        with open(f"{folder}.{site}.json", "w") as file:
            listed = [document(event, f"{site}-{place}") for place, event in enumerate(events[site])]
            json.dump({"type": "EPCISDocument", "schemaVersion": "2.0", "creationDate": "2024-05-01T08:00:00Z", "epcisBody": {"eventList": listed}}, file)
        ask("capture", folder, site, f"{folder}.{site}.json")
    before = fingerprint(folder)
    trace(folder, events)
    gaps(folder, events)
    packs(folder, events)
    contents(folder, events)
    coverage(folder, events)
    list_items(folder, events, set())
    same("files after questions", fingerprint(folder), before)
    held = set()
    for place, site in enumerate(SITES[:2]):
        item = sorted(set().union(*map(names, events[site])))[number % 3]
        held |= recall_one(folder, events, site, item)
        list_items(folder, events, held)
    same("an unknown recall", ask("status", folder, "north#9", status=1), "refused UnknownRecall\n")
    same("no recall", ask("status", folder, "north", status=1), "refused BadLine\n")
    same("gaps of an unknown recall", ask("gaps", folder, "north#9", status=1), "refused UnknownRecall\n")
    same("a site that isn't listed", ask("status", folder, "west#1", status=1), "refused NoSite west\n")
print(f"{answers} answers are as they should be: {', '.join(f'{count} {name}' for name, count in sorted(asked.items()))}")
PYTHON
