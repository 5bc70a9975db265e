"""A plain model of what `recall` promises, written from docs/FORMATS.md, docs/COMMANDS.md and docs/HOW-IT-WORKS.md alone:
items, documents, a site's record and its steps, the script language, the rows of a site's file, the ten conditions. It is
slow and says each thing once, as the documents do. The campaigns beside it judge by it, so that nothing of the program that is
tried is believed.
"""
import datetime
import itertools
import json
import re

SERIAL = set('0123456789ABCDEFGHIJKLMNOPQRSTUVWXYZabcdefghijklmnopqrstuvwxyz_!"%&\'()*+,-./:;<=>?')
LAST = 1 << 62


class Refused(Exception):
    """The words behind `refused`."""


# Items.


def is_plain(text):
    raw = text.encode()
    return 1 <= len(raw) <= 512 and all(byte > 0x20 and byte != 0x7F for byte in raw)


def check_digit(digits):
    """The last digit of a GTIN or an SSCC, by the other ones."""
    weighted = sum(int(it) * (3 if place % 2 == 0 else 1) for place, it in enumerate(reversed(digits)))
    return str(-weighted % 10)


def digits(text):
    return text.isascii() and text.isdigit()


def serial_of(text):
    """A serial with its escapes decoded, or None."""
    text = re.sub("%([0-9A-Fa-f]{2})", lambda it: chr(int(it[1], 16)), text)
    return text if 1 <= len(text) <= 20 and set(text) <= SERIAL else None


def key(text):
    """The key of an EPC text."""
    return sgtin(text) or sscc(text) or f"uri {text}"


def sgtin(text):
    if text.startswith("urn:epc:id:sgtin:"):
        parts = text[len("urn:epc:id:sgtin:") :].split(".", 2)
        if len(parts) != 3:
            return None
        prefix, item, serial = parts
        if not (digits(prefix) and digits(item) and 6 <= len(prefix) <= 12 and len(prefix + item) == 13):
            return None
        body = item[0] + prefix + item[1:]
        body += check_digit(body)
    elif text.startswith("https://id.gs1.org/01/"):
        body, middle, serial = text[22:36], text[36:40], text[40:]
        if not (digits(body) and len(body) == 14 and middle == "/21/" and check_digit(body[:-1]) == body[-1]) or set(serial) & set("/?#"):
            return None
    else:
        return None
    serial = serial_of(serial)
    return serial and f"sgtin {body} {serial}"


def sscc(text):
    if text.startswith("urn:epc:id:sscc:"):
        parts = text[len("urn:epc:id:sscc:") :].split(".")
        if len(parts) != 2:
            return None
        prefix, item = parts
        if not (digits(prefix) and digits(item) and 6 <= len(prefix) <= 12 and len(prefix + item) == 17):
            return None
        body = item[0] + prefix + item[1:]
        return f"sscc {body}{check_digit(body)}"
    if text.startswith("https://id.gs1.org/00/"):
        body = text[22:]
        if digits(body) and len(body) == 18 and check_digit(body[:-1]) == body[-1]:
            return f"sscc {body}"
    return None


def is_key(text):
    """Whether some EPC text has this key."""
    form, _, rest = text.partition(" ")
    if form == "uri":
        return is_plain(rest) and key(rest) == text
    if form == "sscc":
        return key(f"https://id.gs1.org/00/{rest}") == text
    number, _, serial = rest.partition(" ")
    if form != "sgtin" or not digits(number) or not serial or not serial.isascii():
        return False
    return key(f"https://id.gs1.org/01/{number}/21/" + "".join(f"%{ord(it):02X}" for it in serial)) == text


# Documents.

TYPES = ("ObjectEvent", "TransformationEvent", "AggregationEvent", "TransactionEvent", "AssociationEvent")
QUANTITIES = {"ObjectEvent": ["quantityList"], "TransformationEvent": ["inputQuantityList", "outputQuantityList"], "AggregationEvent": ["childQuantityList"]}
TIME = re.compile(r"(\d{4})-(\d\d)-(\d\d)[Tt ](\d\d):(\d\d):(\d\d)(?:\.(\d{1,9}))?(Z|z|[+-]\d\d:\d\d)")


class Fault(Exception):
    def __init__(self, kind, field, event=None):
        self.kind, self.field, self.event = kind, field, event


def json_of(raw):
    """The value of JSON text in UTF-8, at most 127 deep."""

    def number(text):
        value = float(text)
        if value in (float("inf"), float("-inf")):
            raise ValueError
        return value

    def constant(_):
        raise ValueError

    try:
        text = raw.decode("utf-8")
        deep = most = 0
        inside = False
        place = 0
        while place < len(text):
            it = text[place]
            if inside:
                place += it == "\\"
                inside = it != '"'
            elif it == '"':
                inside = True
            elif it in "[{":
                deep += 1
                most = max(most, deep)
            elif it in "]}":
                deep -= 1
            place += 1
        if most > 127:
            raise ValueError
        value = json.loads(text, parse_float=number, parse_constant=constant)
        json.dumps(value, ensure_ascii=False).encode("utf-8")
        return value
    except (ValueError, RecursionError):
        raise Fault("Syntax", "document", 0) from None


def instant(text):
    """Seconds and nanoseconds from 1970 in UTC, or None."""
    said = TIME.fullmatch(text)
    if not said:
        return None
    year, month, day, hour, minute, second = (int(it) for it in said.groups()[:6])
    try:
        moment = datetime.datetime(year, month, day, hour, minute, second)
    except ValueError:
        return None
    seconds = int((moment - datetime.datetime(1970, 1, 1)).total_seconds())
    offset = said[8]
    if offset not in "Zz":
        away = int(offset[1:3]) * 3600 + int(offset[4:6]) * 60
        seconds += away if offset[0] == "-" else -away
    return seconds, int((said[7] or "0").ljust(9, "0"))


def member(value, name):
    return value.get(name)


def text_at(value, name, missing):
    found = member(value, name)
    if found is None:
        if missing:
            raise Fault("Missing", name)
        return None
    if not isinstance(found, str):
        raise Fault("WrongShape", name)
    return found


def list_at(value, name):
    found = member(value, name)
    if found is None:
        return []
    if not isinstance(found, list):
        raise Fault("WrongShape", name)
    if len(found) > 1000:
        raise Fault("TooManyEpcs", name)
    return found


def epcs_at(value, name):
    keys = []
    for it in list_at(value, name):
        if not isinstance(it, str):
            raise Fault("WrongShape", name)
        if not is_plain(it):
            raise Fault("BadEpc", name)
        keys.append(key(it))
    return tuple(keys)


def destinations_at(value, sites):
    found = []
    for it in list_at(value, "destinationList"):
        if not isinstance(it, dict):
            raise Fault("WrongShape", "destinationList")
        text = member(it, "destination")
        if text is None:
            raise Fault("Missing", "destinationList")
        if not isinstance(text, str) or not is_plain(text):
            raise Fault("WrongShape", "destinationList")
        site = sites.of_address(text)
        found.append(("outside", text) if site is None else ("site", site))
    # traced sites and places outside are two lists
    return tuple(it for it in found if it[0] == "site") + tuple(it for it in found if it[0] == "outside")


def action_at(value):
    action = text_at(value, "action", True)
    if action not in ("ADD", "OBSERVE", "DELETE"):
        raise Fault("Action", "action")
    return action


def event_of(value, sites):
    """What is read of an event: its eventID, its instant, and its body; None of one that is skipped."""
    if not isinstance(value, dict):
        raise Fault("WrongShape", "event")
    kind = value.get("type")
    if kind not in TYPES:
        raise Fault("NoType", "type")
    if kind in ("TransactionEvent", "AssociationEvent"):
        return None
    if member(value, "errorDeclaration") is not None:
        raise Fault("ErrorDeclared", "errorDeclaration")
    for name in QUANTITIES[kind]:
        found = member(value, name)
        if found is not None:
            if not isinstance(found, list):
                raise Fault("WrongShape", name)
            if found:
                raise Fault("Quantities", name)
    name = text_at(value, "eventID", False)
    if name is not None and not is_plain(name):
        raise Fault("WrongShape", "eventID")
    time = instant(text_at(value, "eventTime", True))
    if time is None:
        raise Fault("Time", "eventTime")
    if not re.fullmatch(r"[+-](0\d|1[0-4]):[0-5]\d", text_at(value, "eventTimeZoneOffset", True)):
        raise Fault("Offset", "eventTimeZoneOffset")
    if kind == "ObjectEvent":
        action_at(value)
        items, to = epcs_at(value, "epcList"), destinations_at(value, sites)
        body = ("ship", items, to) if to else ("see", items)
    elif kind == "TransformationEvent":
        ins, outs = epcs_at(value, "inputEPCList"), epcs_at(value, "outputEPCList")
        make = text_at(value, "transformationID", False)
        if make is not None and not is_plain(make):
            raise Fault("WrongShape", "transformationID")
        if make is None and not (ins and outs):
            raise Fault("HalfTransformation", "transformationID")
        body = ("make", make, ins, outs)
    else:
        action = action_at(value)
        parent = text_at(value, "parentID", action == "ADD")
        if parent is not None:
            if not is_plain(parent):
                raise Fault("BadEpc", "parentID")
            parent = key(parent)
        body = ("pack", action, parent, epcs_at(value, "childEPCs"))
    return name, time, body


def document(raw, sites):
    """The events of a document, and how many are skipped."""
    value = json_of(raw)
    kind = value.get("type") if isinstance(value, dict) else None
    if kind != "EPCISDocument" and kind not in TYPES:
        raise Fault("NotDocument", "document", 0)
    values = [value]
    if kind == "EPCISDocument":
        body = member(value, "epcisBody")
        values = member(body, "eventList") if isinstance(body, dict) else None
        if not isinstance(values, list):
            raise Fault("NotDocument", "eventList", 0)
        if len(values) > 1000:
            raise Fault("TooManyEvents", "eventList", 0)
    events, skipped = [], 0
    for place, it in enumerate(values):
        try:
            event = event_of(it, sites)
        except Fault as fault:
            raise Fault(fault.kind, fault.field, place + 1) from None
        if event is None:
            skipped += 1
        else:
            events.append(event)
    return events, skipped


# Sites and records.


class Sites:
    def __init__(self):
        self.names, self.addresses = [], []

    def add(self, name, addresses):
        if not re.fullmatch("[A-Za-z0-9_-]{1,16}", name):
            raise Refused("BadSite BadName")
        if name in self.names:
            raise Refused("BadSite NameTaken")
        if len(self.names) == 16 or len(addresses) > 16:
            raise Refused("BadSite TooMany")
        if not all(is_plain(it) for it in addresses):
            raise Refused("BadSite BadAddress")
        taken = set().union(set(), *self.addresses)
        if len({*addresses}) < len(addresses) or taken & {*addresses}:
            raise Refused("BadSite AddressTaken")
        self.names.append(name)
        self.addresses.append(list(addresses))

    def of_address(self, text):
        return next((n for n, it in enumerate(self.addresses) if text in it), None)

    def find(self, name):
        if name not in self.names:
            raise Refused(f"NoSite {name}")
        return self.names.index(name)


class Record:
    """What a site keeps. A recall is a pair of the site that began it and a number, and so is a message."""

    def __init__(self, me):
        self.me = me
        self.events, self.held = [], set()  # held: recall and item
        self.outbox, self.seen, self.parents, self.own = {}, {}, {}, {}  # own: number to root and whether it has ended
        self.next_message = self.next_recall = 1

    def copy(self):
        new = Record(self.me)
        new.__dict__.update({name: it.copy() if hasattr(it, "copy") else it for name, it in self.__dict__.items()})
        return new

    def named(self):
        """The items that events of the site name."""
        found = set()
        for _, _, body in self.events:
            found |= {*names_of(body)}
        return found

    def spread(self, items):
        """These items and all that the site made of them."""
        made = made_by(self.events)
        return closure(items, lambda it: made.get(it, ()))

    def sent(self):
        """The items that the site shipped to other traced sites, each with the site."""
        return sent_by(self.events, self.me)

    def deficit(self, recall):
        return sum(row[1] == recall for row in self.outbox.values())

    # Steps. Each changes the record and returns what it did, or refuses and changes nothing.

    def capture(self, events):
        kept = self.copy()
        new = known = 0
        for place, event in enumerate(events):
            same = next((it for it in kept.events if it[0] is not None and it[0] == event[0]), None)
            if same:
                if same != event:
                    raise Refused(f"IdTaken event {place + 1}")
                known += 1
                continue
            blocked = kept.blocked_by(event)
            if blocked:
                item, recall = blocked
                raise Refused(("Blocked", recall, item, place + 1))
            kept.events.append(event)
            new += 1
        self.__dict__.update(kept.__dict__)
        return new, known

    def blocked_by(self, event):
        """The least item, and of that the least recall, that the event leads on to a pair that isn't held here under it."""
        after = [*self.events, event]
        made_before, made_after = made_by(self.events), made_by(after)
        sent_new = {item for item, _ in sent_by(after, self.me) - self.sent()}
        found = []
        for recall, item in self.held:
            out = made_after.get(item, set()) - made_before.get(item, set())
            if item in sent_new or any((recall, it) not in self.held for it in out):
                found.append((item.encode(), recall, item))
        if not found:
            return None
        _, recall, item = min(found)
        return item, recall

    def announce(self, recall, items):
        """Quarantines items, and numbers their messages."""
        before = len(self.outbox)
        self.held |= {(recall, it) for it in items}
        for item, to in sorted(self.sent(), key=lambda it: (it[0].encode(), it[1])):
            if item in items:
                self.outbox[self.next_message] = (to, recall, item)
                self.next_message += 1
        return len(self.outbox) - before

    def knows(self, item):
        return item in self.named() or any(it == item for _, it in self.held)

    def start(self, item):
        if not self.knows(item):
            raise Refused("UnknownItem")
        recall = (self.me, self.next_recall)
        self.next_recall += 1
        items = self.spread({item})
        count = self.announce(recall, items)
        self.own[recall[1]] = (item, count == 0)
        return recall, len(items), count, count == 0

    def take(self, message, recall, item):
        """A message came."""
        if message in self.seen:
            return "repeat"
        items = {it for it in self.spread({item}) if (recall, it) not in self.held}
        self.seen[message] = recall
        engaged = recall in self.parents or recall[0] == self.me
        count = self.announce(recall, items)
        if not engaged and count:
            self.parents[recall] = message
            return len(items), count, "owed"
        return len(items), count, "signal"

    def signalled(self, number):
        row = self.outbox.pop(number, None)
        if row is None:
            return ("stale",)
        recall = row[1]
        if self.deficit(recall):
            return ("cleared",)
        if recall in self.parents:
            return "due", self.parents.pop(recall)
        root, _ = self.own[recall[1]]
        self.own[recall[1]] = (root, True)
        return "ended", recall

    def may_signal(self, message):
        return message in self.seen and message not in self.parents.values()


def names_of(body):
    if body[0] in ("see", "ship"):
        return body[1]
    if body[0] == "make":
        return body[2] + body[3]
    return body[3] + ((body[2],) if body[2] is not None else ())


def closure(items, targets):
    found, left = set(items), list(items)
    while left:
        for it in targets(left.pop()):
            if it not in found:
                found.add(it)
                left.append(it)
    return found


def made_by(events):
    """What each item is made into: parts with one transformationID are one transformation."""
    makes = {}
    for place, (_, _, body) in enumerate(events):
        if body[0] == "make":
            ins, outs = makes.setdefault(("id", body[1]) if body[1] is not None else ("at", place), (set(), set()))
            ins |= {*body[2]}
            outs |= {*body[3]}
    made = {}
    for ins, outs in makes.values():
        for it in ins:
            made.setdefault(it, set()).update(outs)
    return made


def inside_of(events):
    packs = {}
    for _, _, body in events:
        if body[0] == "pack" and body[1] == "ADD":
            packs.setdefault(body[2], set()).update(body[3])
    return packs


def sent_by(events, me):
    """What the site shipped to other traced sites, by itself or in a container, each with the site."""
    packs, found = inside_of(events), set()
    for _, _, body in events:
        if body[0] == "ship":
            items = closure(body[1], lambda it: packs.get(it, ()))
            found |= {(item, to) for item in items for kind, to in body[2] if kind == "site" and to != me}
    return found


def left_by(events):
    """What the site shipped out of the traced sites, each with its destination."""
    packs, found = inside_of(events), set()
    for _, _, body in events:
        if body[0] == "ship":
            items = closure(body[1], lambda it: packs.get(it, ()))
            found |= {(item, to) for item in items for kind, to in body[2] if kind == "outside"}
    return found


def reach(records, pair):
    """All pairs of site and item that chains of related pairs lead to."""
    made = [made_by(it.events) for it in records]
    sent = [it.sent() for it in records]

    def targets(at):
        site, item = at
        return {(site, it) for it in made[site].get(item, ())} | {(to, item) for it, to in sent[site] if it == item}

    return closure({pair}, targets)


def in_order(pairs):
    return sorted(pairs, key=lambda it: (it[0], it[1].encode()))


# The ten conditions, but for those of frames on their way. Each gives the sites that break it.


def misfits(records):
    """What is wrong with the records as a whole: pairs of the condition's number and the site."""
    found = set()
    reached = {(r.me, n): reach(records, (r.me, root)) for r in records for n, (root, _) in r.own.items()}
    for r in records:
        made, sent = made_by(r.events), r.sent()
        for recall, item in r.held:
            if any((recall, it) not in r.held for it in made.get(item, ())):
                found.add((1, r.me))
            for it, to in sent:
                if it == item and (recall, item) not in records[to].held and (to, recall, item) not in r.outbox.values():
                    found.add((2, to))
            if (r.me, item) not in reached.get(recall, ()):
                found.add((3, r.me))
        for number, (to, recall, item) in r.outbox.items():
            if (r.me, number) in records[to].seen and (recall, item) not in records[to].held:
                found.add((2, to))
            if (recall, item) not in r.held or (item, to) not in sent:
                found.add((3, r.me))
            live = recall[0] == r.me and not r.own.get(recall[1], (None, True))[1]
            if recall not in r.parents and not live:
                found.add((4, r.me))
        for number, (root, ended) in r.own.items():
            if ((r.me, number), root) not in r.held:
                found.add((3, r.me))
            if ended and r.deficit((r.me, number)):
                found.add((9, r.me))
        for recall, (sender, number) in r.parents.items():
            row = records[sender].outbox.get(number)
            if r.seen.get((sender, number)) != recall or row is None or row[:2] != (r.me, recall):
                found.add((5, r.me))
            at, steps = r.me, 0
            while at != recall[0] and steps <= len(records) and recall in records[at].parents:
                at = records[at].parents[recall][0]
                steps += 1
            if at != recall[0] or r.me == recall[0]:
                found.add((6, r.me))
        found |= numbers_of(r, records)
    return found


def numbers_of(r, records):
    bad = set()
    recalls = {it for it, _ in r.held} | {(r.me, n) for n in r.own}
    for site, number in recalls:
        if number >= records[site].next_recall:
            bad.add((10, site))
    for site, number in {*r.seen} | {(r.me, n) for n in r.outbox}:
        if number >= records[site].next_message:
            bad.add((10, site))
    return bad


def inexact(records):
    """A recall that has ended, and for which isn't quarantined just what its root reaches."""
    for r in records:
        for number, (root, ended) in r.own.items():
            held = {(it.me, item) for it in records for recall, item in it.held if recall == (r.me, number)}
            if ended and held != reach(records, (r.me, root)):
                return (r.me, number)
    return None


# Scripts.


class Script:
    """Sites in memory, driven by lines."""

    def __init__(self):
        self.sites, self.records, self.closed, self.armed, self.frames = Sites(), None, None, {}, []
        self.was_refused = False

    def run(self, text):
        lines = text.split(b"\n")
        if lines[-1] == b"":
            lines.pop()
        out = []
        for line in lines:
            if len(line) > 16_777_216:
                return "".join(f"{it}\n" for it in out).encode(), 3
            out += self.line(line[:-1] if line.endswith(b"\r") else line)
        return "".join(f"{it}\n" for it in out).encode("utf-8", "surrogateescape"), 1 if self.was_refused else 0

    def line(self, raw):
        try:
            if not raw.strip(b" ") or raw.startswith(b"#"):
                return []
            text = raw.decode("utf-8")
        except UnicodeDecodeError:
            return self.refuse("BadLine")
        try:
            return self.ask(text)
        except Refused as refused:
            return self.refuse(self.words(refused.args[0]))

    def words(self, what):
        if isinstance(what, tuple):
            _, recall, item, event = what
            return f"Blocked {self.recall(recall)} {item} event {event}"
        return what

    def refuse(self, words):
        self.was_refused = True
        return [f"refused {words}"]

    def recall(self, it):
        return f"{self.sites.names[it[0]]}#{it[1]}"

    def message(self, it):
        return f"{self.sites.names[it[0]]}.{it[1]}"

    def pair(self, it):
        return f"pair {self.sites.names[it[0]]} {it[1]}"

    def ask(self, text):
        words = [it for it in text.split(" ") if it]
        what = words[0]
        if what == "site":
            if len(words) < 2:
                raise Refused("BadLine")
            if self.records is not None:
                raise Refused("Late")
            self.sites.add(words[1], words[2:])
            return []
        if what == "capture":
            said = re.fullmatch(r" *capture +([^ ]+) +([^ ].*)", text, re.S)
            if not said:
                raise Refused("BadLine")
            words = ["capture", said[1], said[2]]
        counts = {"capture": 3, "reach": 3, "recall": 3, "send": 3, "signal": 4, "deliver": 2, "stop": 3, "reopen": 2, "pump": 2, "quarantine": 2}
        if counts.get(what) != len(words):
            raise Refused("BadLine")

        def number(it):
            if not re.fullmatch("[0-9]{1,18}", it):
                raise Refused("BadLine")
            return int(it)

        if what == "send":
            words[2] = number(words[2])
        elif what == "signal":
            words[3] = number(words[3])
        elif what in ("deliver", "pump"):
            words[1] = number(words[1])
            if what == "pump" and words[1] > 1000:
                raise Refused("BadLine")
        elif what == "stop" and words[2] not in ("old", "new"):
            raise Refused("BadLine")
        elif what == "quarantine":
            name, mark, it = words[1].rpartition("#")
            if not mark:
                raise Refused("BadLine")
            words[1:] = [name, number(it)]
        if len(self.sites.names) < 2:
            raise Refused("NoWorld")
        if self.records is None:
            self.records = [Record(n) for n in range(len(self.sites.names))]
            self.closed = [None] * len(self.records)
        return getattr(self, f"do_{what}")(*words[1:])

    def open_at(self, name):
        site = self.sites.find(name)
        if self.closed[site]:
            raise Refused(f"Closed {name}")
        return site

    def all_open(self):
        for name, closed in zip(self.sites.names, self.closed):
            if closed:
                raise Refused(f"Closed {name}")

    def step(self, site, step):
        """A step at a site, which may crash in it: what the step does, or None."""
        keeps = self.armed.pop(site, None)
        if keeps is None:
            return step(self.records[site])
        if keeps == "new":
            try:
                step(self.records[site])
            except Refused:
                pass
        self.closed[site] = True
        return None

    def stopped(self, site):
        return [f"stopped {self.sites.names[site]}"]

    def do_capture(self, name, text):
        site = self.open_at(name)

        def step(kept):
            events, skipped = self.read(text.encode())
            return *kept.capture(events), skipped

        done = self.step(site, step)
        return self.stopped(site) if done is None else ["captured {} known {} skipped {}".format(*done)]

    def read(self, raw):
        try:
            return document(raw, self.sites)
        except Fault as fault:
            raise Refused(f"Doc {fault.kind} event {fault.event} field {fault.field}") from None

    def do_reach(self, name, epc):
        site = self.sites.find(name)
        if not is_plain(epc):
            raise Refused("BadEpc")
        self.all_open()
        found = in_order(reach(self.records, (site, key(epc))))
        return [*map(self.pair, found), f"pairs {len(found)}"]

    def do_recall(self, name, epc):
        site = self.sites.find(name)
        if not is_plain(epc):
            raise Refused("BadEpc")
        self.open_at(name)
        done = self.step(site, lambda it: it.start(key(epc)))
        if done is None:
            return self.stopped(site)
        recall, new, count, ended = done
        return [f"recall {self.recall(recall)} new {new} messages {count} {'ended' if ended else 'open'}"]

    def do_send(self, name, number):
        site = self.open_at(name)
        if number not in self.records[site].outbox:
            raise Refused("NoFrame")
        return self.post(("message", site, number))

    def post(self, frame):
        kind, site, number = frame[:3]
        if kind == "message":
            to, recall, item = self.records[site].outbox[number]
            frame = ("message", to, (site, number), recall, item)
        self.frames.append(frame)
        return [f"frame {len(self.frames)}"]

    def do_signal(self, name, sender, number):
        site = self.sites.find(name)
        other = self.sites.find(sender)
        self.open_at(name)
        if not self.records[site].may_signal((other, number)):
            raise Refused("NoFrame")
        return self.post(("signal", other, number))

    def do_deliver(self, place):
        if not 1 <= place <= len(self.frames):
            raise Refused("NoFrame")
        frame = self.frames[place - 1]
        if self.closed[frame[1]]:
            raise Refused(f"Closed {self.sites.names[frame[1]]}")
        return self.deliver(frame)[0]

    def deliver(self, frame):
        """What is printed, and what the step did."""
        site = frame[1]
        if frame[0] == "message":
            _, _, message, recall, item = frame
            done = self.step(site, lambda it: it.take(message, recall, item))
            name = self.message(message)
            if done is None:
                return self.stopped(site), None
            if done == "repeat":
                return [f"repeat {name}"], done
            return [f"received {name} new {done[0]} messages {done[1]} {done[2]}"], done
        done = self.step(site, lambda it: it.signalled(frame[2]))
        if done is None:
            return self.stopped(site), None
        line = f"signalled {self.message((site, frame[2]))} {done[0]}"
        if done[0] == "due":
            line += f" {self.message(done[1])}"
        if done[0] == "ended":
            line += f" {self.recall(done[1])}"
        return [line], done

    def do_stop(self, name, keeps):
        site = self.open_at(name)
        self.armed[site] = keeps
        return [f"armed {name} {keeps}"]

    def do_reopen(self, name):
        site = self.sites.find(name)
        if not self.closed[site]:
            raise Refused(f"NotClosed {name}")
        self.closed[site] = None
        return [f"open {name}"]

    def do_quarantine(self, name, number):
        site = self.sites.find(name)
        self.all_open()
        if number not in self.records[site].own:
            raise Refused("NoRecall")
        recall = (site, number)
        found = in_order((it.me, item) for it in self.records for of, item in it.held if of == recall)
        return [*map(self.pair, found), f"quarantined {len(found)} {'ended' if self.records[site].own[number][1] else 'open'}"]

    def do_pump(self, rounds):
        out, begun = [], len(self.frames)
        for _ in range(rounds):
            out += self.round()
        return [*out, f"pumped {rounds} frames {len(self.frames) - begun}"]

    def round(self):
        out = []
        self.closed = [None] * len(self.records)
        for site in range(len(self.records)):
            if self.closed[site]:
                continue
            for number in sorted(self.records[site].outbox):
                if self.closed[site]:
                    break
                if number not in self.records[site].outbox:
                    continue
                to = self.records[site].outbox[number][0]
                self.post(("message", site, number))
                out += self.hand()
                if self.closed[to] or not self.records[to].may_signal((site, number)):
                    continue
                self.post(("signal", site, number))
                out += self.hand()
        return out

    def hand(self):
        """Delivers the last frame, where its site is open, and tells of ends and stops."""
        frame = self.frames[-1]
        if self.closed[frame[1]]:
            return []
        lines, done = self.deliver(frame)
        if done is None:
            return lines
        return [f"ended {self.recall(done[1])}"] if done[0] == "ended" else []


# The rows of a site's file.

COLUMNS = {
    "store": "one, version, me, next_message, next_recall", "site": "no, name", "address": "text, site, place",
    "event": "no, id, seconds, nanos, kind, make_id", "part": "event, role, place, text", "pack": "event, action, parent",
    "packed": "event, place, text", "quarantine": "recall_site, recall_no, item", "outbox": "number, dest, recall_site, recall_no, item",
    "seen": "sender, number, recall_site, recall_no", "parent": "recall_site, recall_no, sender, number", "recall": "number, root, ended",
}
KEYS = {"address": "text", "event": "no", "part": "event, role, place", "packed": "event, place", "quarantine": "recall_site, recall_no, item",
        "seen": "sender, number", "parent": "recall_site, recall_no"}
ACTIONS = ("ADD", "OBSERVE", "DELETE")


def read_rows(base):
    """All rows of a database, by table and key. One of the first version has no packs."""
    here = {it[0] for it in base.execute("select name from sqlite_schema where type = 'table'")}
    if not {*COLUMNS} - {"pack", "packed"} <= here <= {*COLUMNS}:
        raise ValueError(f"tables {sorted(here)}")
    return {table: base.execute(f"select {names} from {table} order by {KEYS.get(table, '1')}").fetchall() if table in here else [] for table, names in COLUMNS.items()}


def rows_of(record, sites):
    """The rows of a record."""
    rows = {table: [] for table in COLUMNS}
    rows["store"] = [(1, 2, record.me, record.next_message, record.next_recall)]
    rows["site"] = list(enumerate(sites.names))
    rows["address"] = sorted((text, no, place) for no, own in enumerate(sites.addresses) for place, text in enumerate(own))
    for no, (name, (seconds, nanos), body) in enumerate(record.events, 1):
        kind = ("see", "ship", "make", "pack").index(body[0])
        rows["event"].append((no, name, seconds, nanos, kind, body[1] if kind == 2 else None))
        parts = []
        if kind in (0, 1):
            parts += [(no, 0, place, it) for place, it in enumerate(body[1])]
        if kind == 1:
            parts += [(no, 1, place, sites.names[it[1]]) for place, it in enumerate(it for it in body[2] if it[0] == "site")]
            parts += [(no, 2, place, it[1]) for place, it in enumerate(it for it in body[2] if it[0] == "outside")]
        if kind == 2:
            parts += [(no, role, place, it) for role in (3, 4) for place, it in enumerate(body[role - 1])]
        rows["part"] += sorted(parts)
        if kind == 3:
            rows["pack"].append((no, ACTIONS.index(body[1]), body[2]))
            rows["packed"] += [(no, place, it) for place, it in enumerate(body[3])]
    rows["quarantine"] = sorted((s, n, it) for (s, n), it in record.held)
    rows["outbox"] = sorted((n, to, s, no, it) for n, (to, (s, no), it) in record.outbox.items())
    rows["seen"] = sorted((s, n, rs, rn) for (s, n), (rs, rn) in record.seen.items())
    rows["parent"] = sorted((rs, rn, s, n) for (rs, rn), (s, n) in record.parents.items())
    rows["recall"] = sorted((n, root, int(ended)) for n, (root, ended) in record.own.items())
    return rows


def record_of(rows, sites):
    """The record of these rows, which are those of one."""
    (_, _, me, next_message, next_recall), = rows["store"]
    record = Record(me)
    record.next_message, record.next_recall = next_message, next_recall
    parts, packs = {}, {}
    for event, role, place, text in rows["part"]:
        parts.setdefault(event, []).append((role, place, text))
    for event, action, parent in rows["pack"]:
        packs[event] = (action, parent, tuple(text for at, _, text in rows["packed"] if at == event))
    for no, name, seconds, nanos, kind, make in rows["event"]:
        own = parts.get(no, [])
        of = lambda role: tuple(text for it, _, text in sorted(own) if it == role)
        to = tuple(("site", sites.names.index(text)) if role == 1 else ("outside", text) for role, _, text in sorted(own) if role in (1, 2))
        body = [("see", of(0)), ("ship", of(0), to), ("make", make, of(3), of(4))][kind] if kind < 3 else ("pack", ACTIONS[packs[no][0]], packs[no][1], packs[no][2])
        record.events.append((name, (seconds, nanos), body))
    record.held = {((s, n), it) for s, n, it in rows["quarantine"]}
    record.outbox = {n: (to, (s, no), it) for n, to, s, no, it in rows["outbox"]}
    record.seen = {(s, n): (rs, rn) for s, n, rs, rn in rows["seen"]}
    record.parents = {(rs, rn): (s, n) for rs, rn, s, n in rows["parent"]}
    record.own = {n: (root, bool(ended)) for n, root, ended in rows["recall"]}
    return record


def sites_of(text):
    """The sites of a folder's list."""
    sites = Sites()
    for line in text.splitlines():
        words = line.split()
        if words and not line.startswith("#"):
            sites.add(words[1], words[2:])
    return sites


def first_bad(rows, sites):
    """The first row that no record has in its place: its table, and its place by key from 1; None for the place where a row is
    wanting. The tables are tested in the order in which docs/FORMATS.md lists them."""
    is_site = lambda it: 0 <= it < len(sites.names)
    is_number = lambda it: 1 <= it <= LAST
    is_recall = lambda site, number: is_site(site) and is_number(number)
    (_, _, _, next_message, next_recall), = rows["store"]
    if not (1 <= next_message <= LAST + 1 and 1 <= next_recall <= LAST + 1):
        return "store", 1
    kinds, makes = {}, {}
    for place, (no, name, seconds, nanos, kind, make) in enumerate(rows["event"], 1):
        good = no == place and (name is None or is_plain(name)) and 0 <= nanos <= 999_999_999 and 0 <= kind <= 3
        if not good or (make is not None and (kind != 2 or not is_plain(make))):
            return "event", place
        kinds[no], makes[no] = kind, make
    found = first_bad_part(rows["part"], kinds, makes, sites) or first_bad_pack(rows["pack"], rows["packed"], kinds)
    if found:
        return found
    tests = [
        ("quarantine", lambda s, n, item: is_recall(s, n) and is_key(item)),
        ("outbox", lambda number, to, s, n, item: is_number(number) and is_site(to) and is_recall(s, n) and is_key(item)),
        ("seen", lambda sender, number, s, n: is_site(sender) and is_number(number) and is_recall(s, n)),
        ("parent", lambda s, n, sender, number: is_recall(s, n) and is_site(sender) and is_number(number)),
        ("recall", lambda number, root, ended: is_number(number) and is_key(root)),
    ]
    for table, is_good in tests:
        for place, row in enumerate(rows[table], 1):
            if not is_good(*row):
                return table, place
    return None


def first_bad_part(parts, kinds, makes, sites):
    roles = {0: (0,), 1: (0, 1, 2), 2: (3, 4), 3: ()}
    left = {no: [] for no in kinds}
    for place, (event, role, at, text) in enumerate(parts, 1):
        if event not in kinds:
            return "part", place
        left[event].append((place, role, at, text))
    for no, own in left.items():
        kind = kinds[no]
        seen = {}
        for place, role, at, text in own:
            is_good = role in roles[kind] and at == seen.get(role, 0) and at < 1000
            seen[role] = at + 1
            texts = {0: is_key, 3: is_key, 4: is_key, 1: lambda it: it in sites.names, 2: is_plain}
            if not is_good or not texts[role](text):
                return "part", place
        if kind == 1 and not (seen.get(1) or seen.get(2)) or kind == 2 and makes[no] is None and not (seen.get(3) and seen.get(4)):
            return "part", None
    return None


def first_bad_pack(packs, packed, kinds):
    for place, (event, action, parent) in enumerate(packs, 1):
        if kinds.get(event) != 3 or not 0 <= action <= 2 or (parent is None and action == 0) or (parent is not None and not is_key(parent)):
            return "pack", place if all(kinds.get(it) != 3 or it in [p[0] for p in packs] for it in kinds if it < event) else None
    if any(kind == 3 and no not in [it[0] for it in packs] for no, kind in kinds.items()):
        return "pack", None
    seen = {}
    for place, (event, at, text) in enumerate(packed, 1):
        if kinds.get(event) != 3 or at != seen.get(event, 0) or at >= 1000 or not is_key(text):
            return "packed", place
        seen[event] = at + 1
    return None
