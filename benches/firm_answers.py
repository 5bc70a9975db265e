#!/usr/bin/env python3
"""Answers questions about the documents of firm.py by plain sets and dictionaries, as docs/FORMATS.md and
docs/HOW-IT-WORKS.md define the answers: a second program beside `recall`, which shares nothing with it.

usage: firm_answers.py FOLDER trace SITE EPC [--known]
       firm_answers.py FOLDER gaps

`trace` prints the lines of `recall trace --brief` without the first one, the steps and the notes: the pairs that the
item at the site reaches, what left the traced sites, the totals, and how many of the items are missed at each site.
With --known each site ships by all that is known there of packings, as if it had captured them, so that none are.
`gaps` prints what `recall gaps` does.
"""
import argparse
import collections
import functools
import itertools
import json
import pathlib

ITEM_LISTS = ("epcList", "childEPCs", "inputEPCList", "outputEPCList")


@functools.cache
def key(epc):
    """The key of an item by the EPC URI of an SGTIN or an SSCC; any other text is one of its own."""
    scheme, _, rest = epc.removeprefix("urn:epc:id:").partition(":")
    if scheme == "sgtin":
        company, reference, serial = rest.split(".", 2)
        return f"sgtin {checked(reference[0] + company + reference[1:])} {serial}"
    if scheme == "sscc":
        company, serial = rest.split(".")
        return f"sscc {checked(serial[0] + company + serial[1:])}"
    return f"uri {epc}"


def checked(digits):
    """The digits of a GTIN-14 or an SSCC-18 with the check digit: the first one weighs 3, the next one 1, and so on."""
    weighted = sum(int(digit) * weight for digit, weight in zip(digits, itertools.cycle([3, 1])))
    return f"{digits}{-weighted % 10}"


class Site:
    """What a site captured: the items that it named, those that it put into each container and shipped to each place (a
    site by its name, any other by its text), and the inputs and outputs of each transformation."""

    def __init__(self):
        self.named = set()
        self.packed = collections.defaultdict(set)
        self.shipped = collections.defaultdict(set)
        self.made = collections.defaultdict(lambda: (set(), set()))

    def capture(self, event, site_at):
        """Adds an event, by the site at each address."""
        seen, children, inputs, outputs = ({key(epc) for epc in event.get(name, [])} for name in ITEM_LISTS)
        parent = {key(event["parentID"])} if "parentID" in event else set()
        self.named |= seen | children | inputs | outputs | parent
        if event["type"] == "ObjectEvent":
            for it in event.get("destinationList", []):
                self.shipped[site_at.get(it["destination"], it["destination"])] |= seen
        elif event["type"] == "TransformationEvent":
            took, gave = self.made[event.get("transformationID", event["eventID"])]
            took |= inputs
            gave |= outputs
        elif event["action"] == "ADD":
            self.packed[parent.pop()] |= children


def read(folder):
    """The sites in their order, with all that they captured."""
    lists = [line.split()[1:] for line in (folder / "sites").read_text(encoding="utf-8").splitlines()]
    site_at = {address: name for name, *addresses in lists for address in addresses}
    sites = {name: Site() for name, *_ in lists}
    for name, site in sites.items():
        with open(folder / f"{name}.ndjson", encoding="utf-8") as documents:
            for line in documents:
                for event in json.loads(line)["epcisBody"]["eventList"]:
                    site.capture(event, site_at)
    return sites


def inside(items, packings):
    """The items, and all that lies in them where the packings have what was put into each container."""
    found, left = set(items), list(items)
    while left:
        more = set(packings.get(left.pop(), ())) - found
        found |= more
        left += more
    return found


def known_packings(sites):
    """What each site knows of packings: of each container and item in it the sites that packed it so. It knows its own
    packings, and of each container that came to it what was known where it came from."""
    known = {}
    for name, site in sites.items():
        packers = frozenset([name])
        known[name] = {container: dict.fromkeys(items, packers) for container, items in site.packed.items()}
    left = list(sites)
    while left:
        name = left.pop()
        for to in [it for it in sites if it != name and it in sites[name].shipped]:
            came = inside(sites[name].shipped[to], known[name])
            if learn(known[to], known[name], came):
                left.append(to)
    return known


def learn(mine, theirs, containers):
    """Adds what others know of containers, and tells whether any of it was new."""
    new = False
    for container in containers & theirs.keys():
        contents = mine.setdefault(container, {})
        for item, packers in theirs[container].items():
            together = contents.get(item, packers) | packers
            if contents.get(item) != together:
                contents[item] = together
                new = True
    return new


def went(site, packings):
    """All that went to each place, where the packings have what lay in what."""
    return {place: inside(items, packings) for place, items in site.shipped.items()}


def reached(root, sites, goods):
    """The pairs to which chains of shipments and transformations lead from a pair, which is one of them."""
    outputs = {name: collections.defaultdict(list) for name in sites}
    for name, site in sites.items():
        for took, gave in site.made.values():
            for item in took:
                outputs[name][item].append(gave)
    found, left = {root}, [root]
    while left:
        name, item = left.pop()
        next_pairs = {(place, item) for place, its in goods[name].items() if place in sites and item in its}
        next_pairs.update((name, made) for gave in outputs[name].get(item, []) for made in gave)
        left += next_pairs - found
        found |= next_pairs
    return found


def missed_items(sites, own_goods, all_goods):
    """What each site sent on by what is known of packings, and not by its own."""
    return {
        name: set().union(*(its - own_goods[name][place] for place, its in all_goods[name].items() if place != name))
        for name in sites
    }


def trace(sites, root, by_known):
    """The lines of a trace."""
    known = known_packings(sites)
    own_goods = {name: went(site, site.packed) for name, site in sites.items()}
    all_goods = {name: went(site, known[name]) for name, site in sites.items()}
    goods = all_goods if by_known else own_goods
    missed = missed_items(sites, goods, all_goods)
    pairs = reached(root, sites, goods)
    ordered = [(name, item) for name in sites for item in sorted(it for at, it in pairs if at == name)]
    outside = {name: sorted(goods[name].keys() - sites.keys()) for name in sites}
    left = [f"outside {at} {item} {place}" for at, item in ordered for place in outside[at] if item in goods[at][place]]
    counts = collections.Counter(at for at, item in pairs if item in missed[at])
    yield from (f"pair {at} {item}" for at, item in ordered)
    yield from left
    yield f"total {len(pairs)} outside {len(left)}"
    yield from (f"missed {counts[name]} at {name}" for name in sites if counts[name])


def packed_gaps(sites, name, known):
    """Containers that a site shipped on and others packed, each with the first packer of the list, and how many items
    in them the site's own packings have neither there nor among what went where the container went."""
    site, found = sites[name], collections.defaultdict(set)
    own_goods, all_goods = went(site, site.packed), went(site, known)
    for place in all_goods.keys() - {name}:
        for container in all_goods[place] & known.keys():
            for item in known[container].keys() - site.packed.get(container, set()) - own_goods[place]:
                packer = next(number for number, it in enumerate(sites) if it in known[container][item])
                found[container, packer].add(item)
    return [(container, list(sites)[packer], len(found[container, packer])) for container, packer in sorted(found)]


def used_gaps(site, known):
    """Containers that went into a transformation, and how many items in them didn't."""
    found = collections.defaultdict(set)
    for took, _ in site.made.values():
        for container in took & known.keys():
            found[container] |= inside([container], known) - took
    return [(container, len(found[container])) for container in sorted(found) if found[container]]


def unseen_gaps(sites, name):
    """Items that were shipped to a site, none of whose events names them, and the senders."""
    sent = [sites[it].shipped.get(name, set()) if it != name else set() for it in sites]
    found = sorted((item, number) for number, items in enumerate(sent) for item in items - sites[name].named)
    return [(item, list(sites)[number]) for item, number in found]


def gaps(sites):
    """The lines of all gaps."""
    known = known_packings(sites)
    packed = [(name, *gap) for name in sites for gap in packed_gaps(sites, name, known[name])]
    used = [(name, *gap) for name, site in sites.items() for gap in used_gaps(site, known[name])]
    unseen = [(name, *gap) for name in sites for gap in unseen_gaps(sites, name)]
    yield from (f"gap packed {name} {container} by {packer} items {count}" for name, container, packer, count in packed)
    yield from (f"gap used {name} {container} items {count}" for name, container, count in used)
    yield from (f"gap unseen {name} {item} from {sender}" for name, item, sender in unseen)
    items = sum(count for *_, count in packed)
    yield f"total packed {len(packed)} items {items} used {len(used)} unseen {len(unseen)}"


def main():
    parser = argparse.ArgumentParser()
    parser.add_argument("folder", type=pathlib.Path)
    questions = parser.add_subparsers(dest="question", required=True)
    forward = questions.add_parser("trace")
    forward.add_argument("site")
    forward.add_argument("epc")
    forward.add_argument("--known", action="store_true")
    questions.add_parser("gaps")
    words = parser.parse_args()
    sites = read(words.folder)
    lines = gaps(sites) if words.question == "gaps" else trace(sites, (words.site, key(words.epc)), words.known)
    print("\n".join(lines))


main()
