"""Random scripts, and what the program prints for each beside what the model prints. A difference is made smaller, line by line,
before it is told."""
import collections
import json
import random

import model
from chains import program

ITEMS = [
    "x", "y", "z", "w", "v", "urn:epc:id:sgtin:0614141.112345.400", "https://id.gs1.org/01/10614141123459/21/400", "urn:epc:id:sscc:0614141.1234567890",
    "https://id.gs1.org/00/106141412345678908", "https://id.gs1.org/01/10614141123458/21/400", "urn:epc:id:sgtin:0614141.112345.%41%2f", "ä", "x" * 512,
]
BAD_ITEMS = ["", "a b", "a\tb", "x" * 513, "a\u007f", 5, None, ["x"], {}]
TIMES = ["2024-05-01T08:00:00Z", "2024-05-01T10:00:00+02:00", "2024-05-01T08:00:00.000Z", "2024-05-01 08:00:00.5Z", "1969-12-31T23:59:59.25Z", "2024-02-29T23:59:59-14:00"]
BAD_TIMES = ["", "2024-05-01", "now", "2024-13-01T08:00:00Z", "2024-05-01T08:00:00", 5, None, []]
OFFSETS = ["+00:00", "-14:59", "+14:00", "-00:30"]
BAD_OFFSETS = ["", "00:00", "+15:00", "+1:00", "+00:60", "Z", 5, None]


class Maker:
    """Makes one script by a seed."""

    def __init__(self, seed):
        self.chance = random.Random(seed)
        self.sites = ["A", "B", "C", "D"][: self.chance.choice((2, 2, 3, 3, 4))]
        self.pool = self.chance.sample(ITEMS, self.chance.choice((3, 4, 6)))
        self.ids = [f"e{n}" for n in range(self.chance.choice((3, 8, 30)))]
        # some scripts are a recall from the start, which goes from site to site
        self.is_recall = self.chance.random() < 0.4
        # the model goes along, so that lines can speak of messages and frames that are there
        self.model = model.Script()
        self.spoils = self.chance.choice((0, 0, 0.02, 0.1, 0.3))

    def some(self, least, most):
        return [self.item() for _ in range(self.chance.randint(least, most))]

    def item(self):
        if self.spoils and self.chance.random() < self.spoils / 4:
            return self.chance.choice(BAD_ITEMS)
        return self.chance.choice(self.pool)

    def destination(self):
        to = self.chance.choice([*(f"at-{it}" for it in self.sites), *(f"also-{it}" for it in self.sites), "out", "far"])
        made = {"type": "location", "destination": to}
        if self.spoils and self.chance.random() < self.spoils / 4:
            return self.chance.choice([{}, {"destination": None}, {"destination": 5}, {"destination": "a b"}, "b", None, {"destination": ""}])
        return made

    def event(self):
        chance = self.chance
        kind = chance.choice(["see", "ship", "ship", "ship", "make", "make", "part", "pack", "pack", "skip"])
        made = {"eventTime": chance.choice(TIMES[: chance.choice((1, 6))]), "eventTimeZoneOffset": chance.choice(OFFSETS)}
        if chance.random() < 0.6:
            made["eventID"] = chance.choice(self.ids)
        if kind in ("see", "ship"):
            made |= {"type": "ObjectEvent", "action": chance.choice(["OBSERVE", "ADD", "DELETE"]), "epcList": self.some(0, 3)}
            if kind == "ship":
                made["destinationList"] = [self.destination() for _ in range(chance.randint(0, 2) or 1)]
        elif kind in ("make", "part"):
            made |= {"type": "TransformationEvent", "inputEPCList": self.some(1, 2), "outputEPCList": self.some(1, 2)}
            if kind == "part":
                made["transformationID"] = chance.choice(["t1", "t2"])
                for name in ("inputEPCList", "outputEPCList"):
                    if chance.random() < 0.3:
                        del made[name]
        elif kind == "pack":
            made |= {"type": "AggregationEvent", "action": chance.choice(["ADD", "ADD", "ADD", "OBSERVE", "DELETE"]), "parentID": self.item(), "childEPCs": self.some(0, 3)}
            if made["action"] != "ADD" and chance.random() < 0.3:
                del made["parentID"]
        else:
            made |= {"type": chance.choice(["TransactionEvent", "AssociationEvent"])}
        if self.spoils and chance.random() < self.spoils:
            made = self.spoilt(made)
        return made

    def spoilt(self, made):
        chance = self.chance
        how = chance.randrange(10)
        if how == 0:
            made.pop(chance.choice(sorted(made)))
        elif how == 1:
            made[chance.choice(sorted(made))] = chance.choice([None, 5, "x y", [], {}, [5], True, "x"])
        elif how == 2:
            made["eventTime"] = chance.choice(BAD_TIMES)
        elif how == 3:
            made["eventTimeZoneOffset"] = chance.choice(BAD_OFFSETS)
        elif how == 4:
            made[chance.choice(["quantityList", "childQuantityList", "inputQuantityList", "outputQuantityList"])] = chance.choice([[], [{}], 5, None])
        elif how == 5:
            made["errorDeclaration"] = chance.choice([{}, None, 5])
        elif how == 6:
            return chance.choice([None, 5, "x", [], {}, {"type": "Other"}, {"type": 5}])
        elif how == 7:
            made["type"] = chance.choice(["ObjectEvent", "TransformationEvent", "AggregationEvent", "objectEvent", None, 5])
        elif how == 8:
            made["action"] = chance.choice(["add", "", None, 5, "ADD "])
        else:
            made[chance.choice(["epcList", "inputEPCList", "childEPCs", "destinationList"])] = ["x"] * 1001
        return made

    def document(self):
        chance = self.chance
        if chance.random() < 0.5:
            value = self.event()
        else:
            value = {"type": "EPCISDocument", "epcisBody": {"eventList": [self.event() for _ in range(chance.choice((0, 1, 2, 3, 5)))]}, "extra": {"a": [1, 2.5, "ü", None]}}
            if self.spoils and chance.random() < self.spoils / 20:
                value["epcisBody"]["eventList"] = [self.event()] * 1001
            elif self.spoils and chance.random() < self.spoils / 2:
                value = chance.choice([{**value, "epcisBody": None}, {**value, "epcisBody": {}}, {**value, "epcisBody": {"eventList": 5}}, {**value, "type": "EPCISQueryDocument"}, {**value, "epcisBody": []}, [], 5, "x"])
        text = json.dumps(value, ensure_ascii=chance.random() < 0.5, separators=chance.choice([(",", ":"), (", ", ": ")]))
        if self.spoils and chance.random() < self.spoils / 2:
            at = chance.randrange(len(text) + 1)
            text = chance.choice([text[:at], text[:at] + chance.choice('x"{}[],:\\') + text[at:], text + " x", "\ufeff" + text, "[" * 200 + "]" * 200, text.replace(":", ": 1e999,", 1)])
        return text.replace("\n", " ") or "x"

    def begin(self):
        """Shipments of an item round the sites, and a recall of it."""
        chance, item = self.chance, self.chance.choice(self.pool)
        lines = []
        for n, site in enumerate(self.sites):
            others = [it for it in self.sites if it != site]
            to = {self.sites[(n + 1) % len(self.sites)], *chance.sample(others, chance.choice((0, 0, 1)))}
            made = {"type": "ObjectEvent", "eventTime": TIMES[0], "eventTimeZoneOffset": "+00:00", "action": "OBSERVE", "epcList": [item], "destinationList": [{"destination": f"at-{it}"} for it in sorted(to)]}
            if chance.random() < 0.85:
                lines.append(f"capture {site} {json.dumps(made)}")
        return [*lines, f"recall {chance.choice(self.sites)} {item}"]

    def follow(self):
        """A line that goes on with a message or a frame that is there, or None."""
        chance, now = self.chance, self.model
        name = lambda it: now.sites.names[it]
        found = []
        if now.records is None:
            return None
        for r in now.records:
            if now.closed[r.me]:
                continue
            found += [f"send {name(r.me)} {it}" for it in r.outbox]
            found += [f"signal {name(r.me)} {name(s)} {n}" for s, n in r.seen if r.may_signal((s, n)) and n in now.records[s].outbox]
        if now.frames:
            found += [f"deliver {chance.choice((len(now.frames), chance.randint(1, len(now.frames))))}"] * (1 + len(found))
        return chance.choice(found) if found else None

    def line(self):
        chance = self.chance
        line = self.follow() if chance.random() < (0.8 if self.is_recall else 0.35) else None
        if line:
            return line
        site = lambda: chance.choice(self.sites) if chance.random() > 0.01 else "Z"
        epc = lambda: chance.choice(self.pool) if chance.random() > 0.03 else chance.choice(["nobody", "x" * 513, "é"])
        number = lambda: chance.choice((1, 1, 2, 2, 3, 4, 5, 6, 0, 99))
        kind = chance.choices(
            ["capture", "reach", "recall", "send", "signal", "deliver", "stop", "reopen", "pump", "quarantine", "bad", "nothing"],
            [30, 5, 8, 12, 8, 18, 4, 4, 4, 5, 1, 1],
        )[0]
        if kind == "capture":
            return f"capture {site()} {self.document()}"
        if kind in ("reach", "recall"):
            return f"{kind} {site()} {epc()}"
        if kind == "send":
            return f"send {site()} {number()}"
        if kind == "signal":
            return f"signal {site()} {site()} {number()}"
        if kind == "deliver":
            return f"deliver {chance.randint(0, 14)}"
        if kind == "stop":
            return f"stop {site()} {chance.choice(['old', 'new'])}"
        if kind == "reopen":
            return f"reopen {site()}"
        if kind == "pump":
            return f"pump {chance.choice((0, 1, 1, 2, 3, 10))}"
        if kind == "quarantine":
            return f"quarantine {site()}#{chance.choice((1, 1, 2, 3, 0))}"
        if kind == "nothing":
            return chance.choice(["", "   ", "# a comment", "#"])
        return chance.choice([
            "reach", "reach A", "send A x", "send A -1", "deliver 1234567890123456789", "pump 1001", "quarantine A", "quarantine A#", "stop A never",
            "Reach A x", "pump  2", "reach  A   x ", "capture A", "signal A B", "reopen", "site E at-E", "quarantine A#00001", "send A 01",
        ])

    def script(self):
        chance = self.chance
        lines = []
        for it in self.sites:
            lines.append(f"site {it} at-{it} also-{it}")
        if chance.random() < 0.15:
            lines.insert(chance.randrange(len(lines) + 1), chance.choice(["site A at-X", "site a.b", "site F at-A", "reach A x", "site G " + " ".join(f"g{n}" for n in range(17)), "# sites", "site H h h", "site", "site I a\x7fb"]))
        if self.is_recall:
            lines += self.begin()
        for it in lines:
            self.model.line(it.encode())
        for _ in range(chance.choice((10, 30, 60))):
            lines.append(self.line())
            self.model.line(lines[-1].encode())
        if chance.random() < 0.5:
            lines += ["pump 20", "quarantine A#1", "quarantine B#1"]
        return lines


def differs(lines):
    """What the program prints for a script, and what the model prints, where they aren't the same."""
    text = ("\n".join(lines) + "\n").encode()
    status, out, err = program("sim", stdin=text)
    wanted, ends = model.Script().run(text)
    if (status, out, err) == (ends, wanted, b""):
        return None
    return f"status {status}, wanted {ends}; {err[:200]!r}; " + next((f"line {n + 1} of the output is {a!r}, wanted {b!r}" for n, (a, b) in enumerate(zip(out.split(b"\n"), wanted.split(b"\n"))) if a != b), "one ends before the other")


def smaller(lines):
    """Fewer lines that differ as well."""
    size = max(1, len(lines) // 2)
    while True:
        place, found = 0, False
        while place < len(lines):
            fewer = lines[:place] + lines[place + size :]
            if fewer and differs(fewer):
                lines, found = fewer, True
            else:
                place += size
        if size == 1 and not found:
            return lines
        size = max(1, size // 2)


# Each answer that a script can have, but for those that come in none (docs/FORMATS.md).
ANSWERS = """captured pair pairs frame armed open repeat stopped ended pumped, recall open, recall ended, received owed, received signal, signalled cleared,
signalled due, signalled ended, signalled stale, quarantined open, quarantined ended, refused BadLine, refused Late, refused NoWorld, refused NoSite, refused BadEpc,
refused Closed, refused NotClosed, refused NoFrame, refused NoRecall, refused IdTaken, refused Blocked, refused UnknownItem, refused BadSite BadName, refused BadSite NameTaken,
refused BadSite TooMany, refused BadSite BadAddress, refused BadSite AddressTaken, refused Doc Action, refused Doc BadEpc, refused Doc ErrorDeclared,
refused Doc HalfTransformation, refused Doc Missing, refused Doc NoType, refused Doc NotDocument, refused Doc Offset, refused Doc Quantities, refused Doc Syntax,
refused Doc Time, refused Doc TooManyEpcs, refused Doc TooManyEvents, refused Doc WrongShape"""


def kind_of(line):
    """Which of these answers a line is."""
    words = line.split(" ")
    if words[0] == "refused":
        return " ".join(words[: 3 if words[1] in ("Doc", "BadSite") else 2])
    if words[0] in ("recall", "received", "quarantined"):
        return f"{words[0]} {words[-1]}"
    return f"signalled {words[2]}" if words[0] == "signalled" else words[0]


def run(tally, setting, count):
    seen, seed = collections.Counter(), setting.seed
    for n in range(count):
        if setting.clock.is_over():
            return
        lines = Maker(f"{seed} {n}").script()
        seen.update(kind_of(it) for it in model.Script().run(("\n".join(lines) + "\n").encode())[0].decode().splitlines())
        wrong = differs(lines)
        if wrong:
            lines = smaller(lines)
            wrong = f"{differs(lines)}\n" + "\n".join(f"      {it[:600]}" for it in lines)
        tally.tell(f"script {seed} {n}", "the same", wrong)
    if setting.whole and count >= 1000:
        first, *rest = (it.strip() for it in ANSWERS.replace("\n", " ").split(","))
        lacks = [it for it in [*first.split(), *rest] if not seen[it]]
        tally.tell(f"each answer of a script came, of {sum(seen.values())} lines", f"{len(lacks)} didn't", ", ".join(lacks) or None)
