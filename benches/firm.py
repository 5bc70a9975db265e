#!/usr/bin/env python3
"""Writes what a dairy firm with nine sites captures in two weeks: EPCIS 2.0 documents, the same for the same arguments.

usage: firm.py OUT SCALE [SEED [DAYS]]

Farms fill tank loads. Two dairies pump up to ten of them into a silo, and each silo goes to a plant: one fills cartons
of milk and packs them into cases, the other fills cases of yogurt. Cases go on pallets to two distribution centres,
which unpack them, store the cases, and put most of them on new pallets, for two shops and for forty customers, whom
nobody traces. Shops sell what they stocked the day before: single cartons of milk, and cases of yogurt.

Each site records what it did itself. So the centres ship cases on whose packing the plants alone captured.

OUT/sites lists the sites, and each line of OUT/<site>.ndjson is a document of up to 500 events, by day and time, for
`recall capture --lines`. SCALE 1 and 14 days make about 199,000 events. On the first day dairy-n fills the silo
urn:epc:id:sgtin:9521321.000012.S0101 for the milk plant.
Prints `documents <n> events <n> epcs <n>`, where an EPC counts as often as an event names it.
"""
import argparse
import collections
import datetime
import itertools
import json
import pathlib
import random
import uuid

SITES = ["farms", "dairy-n", "dairy-s", "milk", "yogurt", "dc-west", "dc-east", "shop-1", "shop-2"]
DAIRIES, CENTRES, SHOPS = SITES[1:3], SITES[5:7], SITES[7:9]
COMPANY = "9521321"
CUSTOMERS = [f"urn:epc:id:sgln:4012345.{number:05}.0" for number in range(1, 41)]
# The reference of each product, and how its serial numbers begin.
PRODUCTS = {"load": "000011.T", "silo": "000012.S", "carton": "000017.C", "case": "100017.B", "yogurt": "200024.Y"}

FIRST_MORNING = datetime.datetime(2026, 11, 2, 4, tzinfo=datetime.timezone(datetime.timedelta(hours=1)))
EVENTS_A_DOCUMENT = 500
# Of a day at scale 1. A filling gives two cases of milk or four of yogurt.
LOADS_A_DAY = 200
FILLINGS_A_DAY = 715
# What lies in what.
LOADS_A_TRUCK, LOADS_A_SILO = 5, 10
CARTONS_A_CASE, CASES_A_PALLET, CASES_AN_ORDER, UNITS_A_SALE = 12, 50, 20, 30


def location(site):
    """A site's location, as an EPC URI."""
    return f"urn:epc:id:sgln:{COMPANY}.{SITES.index(site) + 1:05}.0"


def party(site):
    """The party that owns what lies at a site."""
    return f"urn:epc:id:pgln:{COMPANY}.{SITES.index(site) + 1:05}"


def gln(site):
    """The number of a site's location: 13 digits, of which the last is the check digit."""
    digits = f"{COMPANY}{SITES.index(site) + 1:05}"
    weighted = sum(int(digit) * weight for digit, weight in zip(digits, itertools.cycle([1, 3])))
    return f"{digits}{-weighted % 10}"


def listed(site):
    """The line of a site, with each spelling of it that documents may have."""
    return f"site {site} {location(site)} https://id.gs1.org/414/{gln(site)} {party(site)}\n"


def sgtin(product, serial):
    """One unit of a product."""
    return f"urn:epc:id:sgtin:{COMPANY}.{PRODUCTS[product]}{serial}"


def pieces(items, most):
    """The items in their order, in lists of so many at most."""
    return [items[at : at + most] for at in range(0, len(items), most)]


def shares(items, count):
    """The items in their order, in so many lists of about equal length."""
    return [items[len(items) * at // count : len(items) * (at + 1) // count] for at in range(count)]


def epcs_of(event):
    """Each EPC that an event names, as often as it does."""
    lists = ("epcList", "childEPCs", "inputEPCList", "outputEPCList")
    named = [epc for name in lists for epc in event.get(name, [])]
    return named + [event["parentID"]] if "parentID" in event else named


class Firm:
    """A day's events of each site, and what is left over for the next day."""

    def __init__(self, scale, seed):
        self.scale = scale
        self.random = random.Random(seed)
        self.day = 0
        self.events = {site: [] for site in SITES}
        self.numbers = collections.defaultdict(lambda: itertools.count(1))
        self.cartons = {}  # of each case of milk
        self.stored = {centre: [] for centre in CENTRES}
        self.stocked = {shop: [] for shop in SHOPS}

    def count(self, usual):
        """A number of scale 1 at this firm's scale, 4 at least: one for each way that goods take."""
        return max(4, round(usual * self.scale))

    def serials(self, product, count):
        """So many new units of a product."""
        return [sgtin(product, f"{next(self.numbers[product]):07}") for _ in range(count)]

    def pallet(self):
        """A new pallet."""
        return f"urn:epc:id:sscc:{COMPANY}.1{next(self.numbers['pallet']):09}"

    def uuid(self):
        """A new name of an event or a transformation."""
        return f"urn:uuid:{uuid.UUID(int=self.random.getrandbits(128), version=4)}"

    def some(self, items, part):
        """Takes a part of the items, in no order, out of their list."""
        self.random.shuffle(items)
        taken = items[: int(len(items) * part)]
        del items[: len(taken)]
        return taken

    def add(self, site, minute, kind, step, **members):
        """An event of this day at a site, so many minutes after its morning, which is recorded three minutes later."""
        time = FIRST_MORNING + datetime.timedelta(days=self.day, minutes=minute, seconds=self.random.randrange(60))
        recorded = (time + datetime.timedelta(minutes=3)).astimezone(datetime.timezone.utc)
        place = location(site)
        gate = f"{place[:-1]}GATE{self.random.randrange(1, 4)}"
        event = {
            "type": kind,
            "eventID": self.uuid(),
            "eventTime": time.isoformat(timespec="milliseconds"),
            "eventTimeZoneOffset": "+01:00",
            "recordTime": recorded.strftime("%Y-%m-%dT%H:%M:%S.000Z"),
            "bizStep": step,
            "readPoint": {"id": gate},
            "bizLocation": {"id": place},
        }
        self.events[site].append(event | members)

    def see(self, site, minute, step, epcs, disposition, action="OBSERVE", **members):
        """Items are seen in a step of work."""
        more = {"action": action, "disposition": disposition, "epcList": epcs, **members}
        self.add(site, minute, "ObjectEvent", step, **more)

    def send(self, site, minute, epcs, to):
        """Items leave for a site, which gets them 80 minutes later, or for a customer."""
        source = [{"type": "location", "source": location(site)}]
        arrival = [{"type": "location", "destination": location(to) if to in SITES else to}]
        owner = [{"type": "owning_party", "destination": party(to)}] if to in SITES else []
        note = f"urn:epcglobal:cbv:bt:{gln(site)}:DA{next(self.numbers['note']):07}"
        sent = {
            "bizTransactionList": [{"type": "desadv", "bizTransaction": note}],
            "sourceList": source,
            "destinationList": owner + arrival,
        }
        self.see(site, minute, "shipping", epcs, "in_transit", **sent)
        if to in SITES:
            came = {"sourceList": source, "destinationList": arrival}
            self.see(to, minute + 80, "receiving", epcs, "in_progress", **came)

    def make(self, site, minute, run, inputs=(), outputs=(), lot=None):
        """A part of a run, which takes something in or gives something out."""
        lists = {"inputEPCList": list(inputs), "outputEPCList": list(outputs)}
        members = {name: epcs for name, epcs in lists.items() if epcs}
        if lot:
            best_before = FIRST_MORNING.date() + datetime.timedelta(days=self.day + 30)
            members["ilmd"] = {"cbvmda:lotNumber": lot, "cbvmda:itemExpirationDate": best_before.isoformat()}
        self.add(site, minute, "TransformationEvent", "commissioning", transformationID=run, **members)

    def pack(self, site, minute, container, items):
        """Items are put into a container."""
        members = {"action": "ADD", "parentID": container, "childEPCs": items}
        self.add(site, minute, "AggregationEvent", "packing", **members)

    def unpack(self, site, minute, container, items):
        """Items are taken out of a container."""
        members = {"action": "DELETE", "parentID": container, "childEPCs": items}
        self.add(site, minute, "AggregationEvent", "unpacking", **members)

    def collect_milk(self):
        """Tank loads are filled at the farms, and brought to the dairies by trucks: those of each dairy."""
        loads = self.serials("load", self.count(LOADS_A_DAY))
        for place, load in enumerate(loads):
            self.see("farms", place % 300, "commissioning", [load], "active", action="ADD")
            self.see("farms", place % 300 + 5, "inspecting", [load], "conformant")
        brought = dict(zip(DAIRIES, (loads[0::2], loads[1::2])))
        for dairy, tanks in brought.items():
            for place, truck in enumerate(pieces(tanks, LOADS_A_TRUCK)):
                self.send("farms", 320 + place % 60, truck, dairy)
        return brought

    def fill_silos(self, brought):
        """Loads are pumped into silos, which are sent to the plants by turns: those of each plant."""
        plants = {"milk": [], "yogurt": []}
        turns = itertools.cycle(plants)
        fillings = [(dairy, loads) for dairy, tanks in brought.items() for loads in pieces(tanks, LOADS_A_SILO)]
        for place, (dairy, loads) in enumerate(fillings):
            run, silo = self.uuid(), sgtin("silo", f"{self.day + 1:02}{place + 1:02}")
            for load in loads:
                self.make(dairy, 470 + place % 60, run, inputs=[load])
            self.make(dairy, 540 + place % 30, run, outputs=[silo])
            plant = next(turns)
            self.send(dairy, 575 + place % 20, [silo], plant)
            plants[plant].append(silo)
        return plants

    def runs(self, plant, silos):
        """A run for each silo, which takes it in: its transformation, its lot, and the minutes of its fillings."""
        fillings = shares(range(self.count(FILLINGS_A_DAY)), len(silos))
        for place, (silo, share) in enumerate(zip(silos, fillings)):
            lot = f"L{plant[0].upper()}{self.day + 1:02}{place + 1:02}"
            run = f"https://dairy.example/run/{lot}"
            self.make(plant, 680 + place % 20, run, inputs=[silo])
            yield run, lot, [700 + filling % 280 for filling in range(len(share))]

    def fill_milk(self, silos):
        """Cartons are filled, and packed into cases: the cases."""
        cases = []
        for run, lot, minutes in self.runs("milk", silos):
            for minute in minutes:
                two, cartons = self.serials("case", 2), self.serials("carton", 2 * CARTONS_A_CASE)
                self.make("milk", minute, run, outputs=cartons, lot=lot)
                for case, content in zip(two, pieces(cartons, CARTONS_A_CASE)):
                    self.pack("milk", minute + 2, case, content)
                    self.cartons[case] = content
                cases += two
        return cases

    def fill_yogurt(self, silos):
        """Cases are filled with cups that have no numbers, and inspected: the cases."""
        cases = []
        for run, lot, minutes in self.runs("yogurt", silos):
            for minute in minutes:
                four = self.serials("yogurt", 4)
                self.make("yogurt", minute, run, outputs=four, lot=lot)
                for case in four:
                    self.see("yogurt", minute + 4, "inspecting", [case], "conformant")
                cases += four
        return cases

    def deliver_cases(self, plant, cases):
        """Cases go on pallets to the centres by turns, which unpack and store them."""
        for place, content in enumerate(pieces(cases, CASES_A_PALLET)):
            pallet, centre = self.pallet(), CENTRES[next(self.numbers["turn"]) % 2]
            self.pack(plant, 1000 + place % 60, pallet, content)
            self.send(plant, 1070 + place % 60, [pallet], centre)
            self.unpack(centre, 1160 + place % 60, pallet, content)
            for case in content:
                self.see(centre, 1170 + place % 60, "storing", [case], "in_progress")
            self.stored[centre] += content

    def deliver_orders(self, centre):
        """Most cases that a centre has go on new pallets: about half of these to the shops, the others to customers."""
        for place, order in enumerate(pieces(self.some(self.stored[centre], 0.85), CASES_AN_ORDER)):
            pallet, minute = self.pallet(), 1240 + place % 60
            to = self.random.choice([*SHOPS, None, None]) or self.random.choice(CUSTOMERS)
            self.pack(centre, minute, pallet, order)
            self.send(centre, minute + 30, [pallet], to)
            if to in SHOPS:
                self.stock(to, minute + 120, pallet, order)

    def stock(self, shop, minute, pallet, cases):
        """A shop unpacks a pallet, and puts what is in the cases of milk, or the cases of yogurt, on its shelves."""
        self.unpack(shop, minute, pallet, cases)
        for case in cases:
            self.see(shop, minute + 5, "stocking", [case], "sellable_accessible")
            self.stocked[shop] += self.cartons.get(case, [case])

    def sell(self, shop):
        """What went over a shop's tills, from 8 in the morning on."""
        for place, units in enumerate(pieces(self.some(self.stocked[shop], 0.9), UNITS_A_SALE)):
            self.see(shop, 240 + place % 720, "retail_selling", units, "retail_sold")

    def work(self):
        """All that happens on a day."""
        for shop in SHOPS:
            self.sell(shop)
        silos = self.fill_silos(self.collect_milk())
        self.deliver_cases("milk", self.fill_milk(silos["milk"]))
        self.deliver_cases("yogurt", self.fill_yogurt(silos["yogurt"]))
        for centre in CENTRES:
            self.deliver_orders(centre)


def document(events, day):
    """A document of these events, as it is sent the morning after."""
    sent = FIRST_MORNING + datetime.timedelta(days=day + 1)
    context = ["https://ref.gs1.org/standards/epcis/2.0.0/epcis-context.jsonld", {"cbvmda": "urn:epcglobal:cbv:mda:"}]
    return {
        "@context": context,
        "type": "EPCISDocument",
        "schemaVersion": "2.0",
        "creationDate": sent.isoformat(timespec="milliseconds"),
        "epcisBody": {"eventList": events},
    }


def write_day(firm, out, totals):
    """Appends each site's events of the day to its file."""
    for site, events in firm.events.items():
        ordered = sorted(events, key=lambda event: event["eventTime"])
        with open(out / f"{site}.ndjson", "a", encoding="utf-8") as file:
            for some in pieces(ordered, EVENTS_A_DOCUMENT):
                file.write(json.dumps(document(some, firm.day), separators=(",", ":")) + "\n")
                totals["documents"] += 1
        totals["events"] += len(events)
        totals["epcs"] += sum(len(epcs_of(event)) for event in events)
        events.clear()


def main():
    parser = argparse.ArgumentParser(usage="firm.py OUT SCALE [SEED [DAYS]]")
    parser.add_argument("out", type=pathlib.Path)
    parser.add_argument("scale", type=float)
    parser.add_argument("seed", type=int, nargs="?", default=7)
    parser.add_argument("days", type=int, nargs="?", default=14)
    words = parser.parse_args()
    words.out.mkdir(parents=True)
    (words.out / "sites").write_text("".join(listed(site) for site in SITES), encoding="utf-8")
    firm, totals = Firm(words.scale, words.seed), collections.Counter()
    for day in range(words.days):
        firm.day = day
        firm.work()
        write_day(firm, words.out, totals)
    print(*(f"{name} {totals[name]}" for name in ("documents", "events", "epcs")))


main()
