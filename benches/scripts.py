#!/usr/bin/env python3
"""Prints a script for `recall sim`, or the documents of one, for the benchmarks.

usage: scripts.py SHAPE N [--random] [--asks N] [--documents SITE]

  chain, tree, dag   N items, each made of the one before it, of item n/2, or of one to three earlier ones
  notes              a chain of N items, each of which is seen twenty times more
  parts              N parts of one transformationID, a document each
  batch              one transformation of N inputs and N outputs, of which an input is recalled
  messages           a recall whose N messages come into one transformation of N inputs and N outputs
  recalls            N recalls of N items, and then a thousand shipments of others
  spread             one item made into N, all shipped to another site, and a recall of it
  pallet             one item made into N, packed by the hundred into cartons, and those on a pallet, which is shipped over
                     eight sites, each of which captured what was packed; and a recall of the item
  late               a shipped pallet, and then N items in cartons of a thousand, which are put on it
  repeats            N items in cartons on a pallet, and a thousand shipments of the pallet to one site
  packs              a chain of N items, each put into the one before, of which the first is shipped
  cycle              the same, with the first put into the last
  between            N messages of a recall into a transformation of N inputs and N outputs, a capture behind each
  held               a recall that holds N inputs of a transformation in parts, and then 2N parts more
  late-inputs        a recall that holds N outputs of a transformation and 100 inputs, which come into it in one part
  reworked           N days of one item each, made of the one of the day before, and a recall of the first
  packings           N items put into cartons of their own at a site, which made one of them and ships that carton to
                     places that aren't traced; and a recall of what it was made of
  stages             twenty transformations of N inputs and N outputs, each of which takes in what the one before gave
                     out, and a recall of one of the first inputs
  open               N items that are shipped to a site, which makes them into one batch of a thousand, and a recall of
                     each, of which no message is sent

--random gives the items serial numbers in no order, as tags have them, in place of i0, i1, ..
--ids gives each event an eventID, a random UUID. --asks N asks N times what the first item reaches. --documents SITE prints the documents of a site alone, one a line.
"""
import argparse
import random
import re
import uuid

TIMES = '"eventTime":"2024-05-01T08:00:00Z","eventTimeZoneOffset":"+00:00"'
MOST = 1000  # members of a list, and events of a document
SITES = "ABCDEFGH"


def texts(names):
    return "[" + ",".join(f'"{name}"' for name in names) + "]"


def seen(items):
    return f'{{"type":"ObjectEvent",{TIMES},"action":"OBSERVE","epcList":{texts(items)}}}'


def shipped(items, address):
    return (f'{{"type":"ObjectEvent",{TIMES},"action":"OBSERVE","epcList":{texts(items)},'
            f'"destinationList":[{{"type":"location","destination":"{address}"}}]}}')


def made(inputs, outputs, id=None):
    named = f'"transformationID":"{id}",' if id else ""
    return f'{{"type":"TransformationEvent",{TIMES},{named}"inputEPCList":{texts(inputs)},"outputEPCList":{texts(outputs)}}}'


def packed(parent, children):
    return (f'{{"type":"AggregationEvent",{TIMES},"action":"ADD","parentID":"{parent}",'
            f'"childEPCs":{texts(children)}}}')


def in_pieces(values, most=MOST):
    values = list(values)
    return [values[at:at + most] for at in range(0, len(values), most)]


def documents(events):
    for piece in in_pieces(events):
        yield '{"type":"EPCISDocument","epcisBody":{"eventList":[' + ",".join(piece) + "]}}"


def joined(inputs, outputs, id):
    """The parts of one transformation of many inputs and outputs."""
    for piece in in_pieces(inputs):
        yield made(piece, [], id)
    for piece in in_pieces(outputs):
        yield made([], piece, id)


def cartons_of(items, each):
    """The events that put items into cartons of so many, and these on the pallet `p`."""
    pieces = in_pieces(items, each)
    cartons = [f"c{place}" for place in range(len(pieces))]
    return ([packed(carton, piece) for carton, piece in zip(cartons, pieces)]
            + [packed("p", piece) for piece in in_pieces(cartons)])


def lines_of(shape, n, name):
    """The captures (site, document) and other lines of a shape."""
    def at(site, events):
        return [(site, document) for document in documents(events)]

    pick = random.Random(42)
    if shape in ("chain", "notes"):
        parents = ([i - 1] for i in range(1, n))
    elif shape == "tree":
        parents = ([(i - 1) // 2] for i in range(1, n))
    elif shape == "dag":
        parents = ([pick.randrange(i) for _ in range(1 + pick.randrange(3))] for i in range(1, n))
    else:
        parents = None
    if parents is not None:
        chain = at("A", (made([name(p) for p in some], [name(i)]) for i, some in enumerate(parents, 1)))
        again = at("A", (seen([name(i) for i in piece]) for piece in in_pieces(range(n)) for _ in range(20)))
        return chain + (again if shape == "notes" else [])
    if shape == "parts":
        return [("A", made([name(2 * i)], [name(2 * i + 1)], "t")) for i in range(n)]
    inputs, outputs = [name(i) for i in range(n)], [name(n + i) for i in range(n)]
    if shape == "batch":
        return at("A", joined(inputs, outputs, "t")) + [f"recall A {inputs[0]}"]
    ships = [shipped(piece, "b") for piece in in_pieces(inputs)]
    split = list(joined([name(2 * n)], inputs, "s"))
    if shape == "messages":
        return (at("A", split + ships) + at("B", joined(inputs, outputs, "t"))
                + [f"recall A {name(2 * n)}", "pump 2"])
    if shape == "recalls":
        others = [shipped([name(n + i)], "b") for i in range(1000)]
        return (at("A", (seen(piece) for piece in in_pieces(inputs))) + [f"recall A {item}" for item in inputs]
                + at("A", others))
    if shape == "spread":
        return at("A", split + ships) + [f"recall A {name(2 * n)}"]
    if shape == "pallet":
        boxes = cartons_of(inputs, 100)
        lines = at("A", split)
        for place, site in enumerate(SITES[:7]):
            lines += at(site, boxes + [shipped(["p"], SITES[place + 1].lower())])
        return lines + [f"recall A {name(2 * n)}", "pump 9"]
    if shape == "late":
        return at("A", [shipped(["p"], "b")] + cartons_of(inputs, 1000))
    if shape == "repeats":
        return at("A", cartons_of(inputs, 1000) + [shipped(["p"], "b")] * 1000)
    if shape in ("packs", "cycle"):
        chain = [packed(one, [next]) for one, next in zip(inputs, inputs[1:])]
        closed = [packed(inputs[-1], inputs[:1])] if shape == "cycle" else []
        return at("A", chain + closed + [shipped(inputs[:1], "b")])
    if shape == "between":
        lines = at("A", split + ships) + at("B", joined(inputs, outputs, "t")) + [f"recall A {name(2 * n)}"]
        for i in range(1, n + 1):
            lines += [f"send A {i}", f"deliver {i}"] + at("B", [seen([name(3 * n)])])
        return lines
    if shape == "held":
        more = (made([name(3 * n + i)], [], "t") for i in range(2 * n))
        return (at("A", split) + [f"recall A {name(2 * n)}"] + at("A", (made(piece, [], "t") for piece in in_pieces(inputs)))
                + at("A", more))
    if shape == "late-inputs":
        late = [name(3 * n + i) for i in range(100)]
        of_one = joined([name(2 * n)], outputs + late, "s")
        return (at("A", of_one) + [f"recall A {name(2 * n)}"] + at("A", (made([], piece, "t") for piece in in_pieces(outputs)))
                + at("A", [made(late, [], "t")]))
    if shape == "packings":
        cartons = [packed(f"c{i}", [item]) for i, item in enumerate(inputs)]
        return at("A", [made([name(2 * n)], inputs[:1])] + cartons
                  + [shipped(["c0"], f"out{i}") for i in range(10)]) + [f"recall A {name(2 * n)}"]
    if shape == "stages":
        rows = [[name(stage * n + i) for i in range(n)] for stage in range(21)]
        return at("A", (made(first, second) for first, second in zip(rows, rows[1:]))) + [f"recall A {name(0)}"]
    if shape == "open":
        batch = [name(n + i) for i in range(MOST)]
        return (at("A", ships) + at("B", joined(inputs, batch, "t"))
                + [f"recall A {item}" for item in inputs])
    if shape == "reworked":
        return at("A", (made([name(i)], [name(i + 1)]) for i in range(n))) + [f"recall A {name(0)}"]
    raise SystemExit(f"no such shape: {shape}")


def with_ids(document, pick):
    """The document with an eventID in each of its events."""
    def named(found):
        return f'{found[0]}"eventID":"urn:uuid:{uuid.UUID(int=pick.getrandbits(128), version=4)}",'

    return re.sub('"type":"[A-Za-z]*Event",', named, document)


def main():
    parser = argparse.ArgumentParser()
    parser.add_argument("shape")
    parser.add_argument("n", type=int)
    parser.add_argument("--random", action="store_true")
    parser.add_argument("--ids", action="store_true")
    parser.add_argument("--asks", type=int, default=0)
    parser.add_argument("--documents")
    words = parser.parse_args()
    serials = {}
    pick = random.Random(7)

    def name(i):
        if not words.random:
            return f"i{i}"
        if i not in serials:
            serials[i] = f"urn:epc:id:sgtin:0614141.112345.{pick.randrange(10**12)}"
        return serials[i]

    lines = lines_of(words.shape, words.n, name)
    if words.ids:
        lines = [line if isinstance(line, str) else (line[0], with_ids(line[1], pick)) for line in lines]
    if words.documents:
        print("\n".join(line[1] for line in lines if isinstance(line, tuple) and line[0] == words.documents))
        return
    for site in SITES if words.shape == "pallet" else SITES[:2]:
        print(f"site {site} {site.lower()}")
    for line in lines:
        print(line if isinstance(line, str) else f"capture {line[0]} {line[1]}")
    for _ in range(words.asks):
        print(f"reach A {name(0)}")


main()
