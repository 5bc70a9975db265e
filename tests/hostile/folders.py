"""Random folders of files: documents captured in random ways, with kills between, and each question beside the second program of
tests/questions.sh, which knows the events alone; then captures and starts in the middle of recalls beside the model. A difference
is made smaller, event by event, before it is told. And files with rows that were changed: which row is told as bad, or which
misfit."""
import json
import os
import pathlib
import random
import shutil
import signal
import sqlite3
import subprocess
import time

import inputs
import model
from chains import RECALL, TOP, copy, fits, program, rows as rows_of_file


def questions():
    """The definitions of the second program in tests/questions.sh."""
    text = (TOP / "tests/questions.sh").read_text()
    text = text.split("<<'PYTHON'\n", 1)[1].split("\nPYTHON\n", 1)[0]
    text = text.split('\nfor number in range(int(os.environ["CHAINS"])):')[0]
    os.environ["RECALL"] = RECALL
    found = {"__name__": "questions"}
    exec(compile(text, "tests/questions.sh", "exec"), found)
    return found


NAMES = ["east-1", "south_2", "W", "a"]


class Folder:
    """A folder of random events, and what is asked of it, by a seed."""

    def __init__(self, seed, work, whole):
        self.seed, self.work, self.whole = seed, work, whole
        self.asks = questions()
        # the questions ask for a site of this name in any case
        names = ["north", *random.Random(seed).sample(NAMES, 2)]
        random.Random(seed).shuffle(names)
        self.asks["SITES"] = names
        self.events = self.asks["chain"](seed)

    def differs(self, events):
        """What departs for these events, or None."""
        folder = self.work / "folder"
        shutil.rmtree(folder, ignore_errors=True)
        folder.mkdir()
        try:
            return self.try_all(folder, events, random.Random(f"{self.seed} asks"))
        except SystemExit as told:
            return str(told.code)

    def try_all(self, folder, events, chance):
        names = self.asks["SITES"]
        listed = self.work / "list"
        listed.write_text("".join(f"site {it} at:{it}\n" for it in names))
        self.asks["ask"]("init", str(folder), str(listed))
        sites = model.sites_of(listed.read_text())
        kept = [model.Record(n) for n in range(3)]
        for n, name in enumerate(names):
            wrong = self.capture(folder, name, sites, kept[n], events[name], chance)
            if wrong:
                return wrong
        # tests/questions.sh asks these, too
        if self.whole:
            self.asks["trace"](str(folder), events)
            self.asks["list_items"](str(folder), events, set())
        asked = [(name, it) for name in names for it in sorted(set().union(set(), *map(self.asks["names"], events[name])))]
        if asked:
            self.asks["recall_one"](str(folder), events, *chance.choice(asked))
        return self.amid(folder, names, sites, chance)

    def capture(self, folder, name, sites, kept, events, chance):
        """Captures events in documents of some, each killed now and then and captured again; the record is the model's then."""
        documents = [json.dumps(self.asks["document"](it, f"{name}-{place}")) for place, it in enumerate(events)]
        place = 0
        while place < len(documents):
            count = chance.choice((1, 2, 5))
            some = documents[place : place + count]
            place += count
            how = chance.choice(["one", "lines", "each"])
            file = self.work / "documents"
            file.write_text("\n".join(some) + "\n" if how == "lines" else '{"type":"EPCISDocument","epcisBody":{"eventList":[%s]}}' % ",".join(some))
            words = ["capture", folder, name, *(["--lines"] if how == "lines" else ["--each"] if how == "each" else []), file]
            if chance.random() < 0.2:
                killed(words, chance.random() * 0.03)
            status, out, err = program(*words)
            if status != 0:
                return f"{name}: {out!r} {err!r}"
            for it in some:
                kept.capture(model.document(it.encode(), sites)[0])
        found = rows_of_file(folder, name)
        wanted = model.rows_of(kept, sites)
        return None if found == wanted else f"other rows of {name} than the model's: " + (found if not isinstance(found, dict) else "; ".join(f"{t} {found[t]} wanted {wanted[t]}" for t in found if found[t] != wanted[t]))[:600]

    def amid(self, folder, names, sites, chance):
        """Captures and starts while recalls are open: each answer is the model's on the record that stands."""
        script = model.Script()
        script.sites = sites
        for number in range(16):
            site = chance.randrange(3)
            before = rows_of_file(folder, names[site])
            kept = model.record_of(before, sites)
            items = sorted({it for it in kept.named() | {it for _, it in kept.held}}) or ["uri x1"]
            if chance.random() < 0.3:
                item = chance.choice(items)
                recall, new, count, ended = kept.start(item)
                wanted = f"recall {script.recall(recall)} new {new} messages {count} {'ended' if ended else 'open'}\n"
                status, out, err = program("start", folder, names[site], "--key", item)
            else:
                text = json.dumps(self.document(chance, names, f"amid-{number}"))
                (self.work / "one").write_text(text)
                status, out, err = program("capture", folder, names[site], self.work / "one")
                try:
                    events, skipped = script.read(text.encode())
                    wanted = "captured {} known {} skipped {}\n".format(*kept.capture(events), skipped)
                except model.Refused as refused:
                    wanted = f"refused {script.words(refused.args[0])}\n"
            if out.decode() != wanted:
                return f"{names[site]}: {out!r}, wanted {wanted!r} {err!r}"
            if rows_of_file(folder, names[site]) != model.rows_of(kept, sites):
                return f"{names[site]}: other rows than the model's after {wanted!r}"
            if chance.random() < 0.3:
                words = ["run", folder, "--turns", chance.choice((1, 2, 50))]
                killed(words, chance.random() * 0.1) if chance.random() < 0.3 else program(*words)
        for _ in range(3):
            program("run", folder)
        bad = fits(folder)
        status, out, err = program("audit", folder)
        if bad or status != 0 or b"open" in out:
            return f"after three runs without faults: {bad} {status} {out!r} {err!r}"
        return None

    def document(self, chance, names, number):
        items = [f"x{n}" for n in range(12)]
        some = lambda: chance.sample(items, chance.choice((1, 2)))
        made = {"eventID": chance.choice([number, "amid-1", "amid-2"]), "eventTime": "2024-05-01T08:00:00Z", "eventTimeZoneOffset": "+00:00"}
        kind = chance.choice(["ship", "make", "pack", "part"])
        if kind == "ship":
            return made | {"type": "ObjectEvent", "action": "OBSERVE", "epcList": some(), "destinationList": [{"destination": f"at:{chance.choice([*names, 'out'])}"}]}
        if kind == "pack":
            return made | {"type": "AggregationEvent", "action": "ADD", "parentID": chance.choice(items), "childEPCs": some()}
        return made | {"type": "TransformationEvent", "inputEPCList": some(), "outputEPCList": some()} | ({"transformationID": "t1"} if kind == "part" else {})

    def smaller(self, events):
        for name in list(events):
            place = 0
            while place < len(events[name]):
                fewer = {**events, name: events[name][:place] + events[name][place + 1 :]}
                if self.differs(fewer):
                    events = fewer
                else:
                    place += 1
        return events


def killed(words, seconds):
    run_ = subprocess.Popen([RECALL, *map(str, words)], stdin=subprocess.DEVNULL, stdout=subprocess.DEVNULL, stderr=subprocess.DEVNULL)
    time.sleep(seconds)
    run_.send_signal(signal.SIGKILL)
    run_.wait()


def run(tally, setting, work, count):
    for n in range(count):
        if setting.clock.is_over():
            return
        folder = Folder(f"{setting.seed} {n}", work, setting.whole)
        wrong = folder.differs(folder.events)
        if wrong:
            events = folder.smaller(folder.events)
            wrong = f"{folder.differs(events)}\n      {json.dumps(events)}"
        tally.tell(f"folder {setting.seed} {n}", "the same", wrong)


# Rows that were changed.

ODD = ["0", "1", "2", "-1", "9", "4611686018427387904", "4611686018427387905", "'x'", "'uri x'", "''", "'a b'", "'uri a b'", "'sgtin 1 2'", "NULL", "1000000000", "'uri sscc'", "'plant'", "'sscc 106141412345678908'"]


def spoil(chance, held):
    """A change of one row of a table, as SQL."""
    table = chance.choice(["event", "part", "part", "pack", "packed", "quarantine", "outbox", "seen", "parent", "recall", "store"])
    names = model.COLUMNS[table].split(", ")
    if chance.random() < 0.25:
        known = [it for it in held[table]]
        row = list(chance.choice(known)) if known and chance.random() < 0.6 else [chance.choice(["0", "1", "2"]) for _ in names]
        row = [it if isinstance(it, str) and not known else repr(it) if it is not None else "NULL" for it in row]
        row[chance.randrange(len(row))] = chance.choice(ODD)
        return f"insert into {table} values ({', '.join(map(str, row))})"
    if chance.random() < 0.25 and table != "store":
        return f"delete from {table} where rowid in (select rowid from {table} order by random() limit 1)"
    name = chance.choice([it for it in names if it not in ("one", "version", "me")])
    value = chance.choice(ODD)
    if chance.random() < 0.3:
        other = [it[names.index(name)] for it in held[table]]
        value = repr(chance.choice(other)) if other and other[0] is not None else value
    return f"update {table} set {name} = {value} where rowid in (select rowid from {table} order by random() limit 1)"


def rows(tally, setting, work, made, count):
    """Rows of a file are changed by SQL: what the model says of them is what an audit says, the first bad row of all or the least
    misfit; or the database itself refuses the change or the file."""
    first = made.started
    sites = model.sites_of((first / "sites").read_text())
    half = copy(first, work / "half")
    program("run", half, "--turns", "2")
    begins = [it for it in (first, half, made.ended)]
    for n in range(count):
        if setting.clock.is_over():
            return
        begin = setting.chance.choice(begins)
        folder = copy(begin, work / "rows")
        name = setting.chance.choice(sites.names)
        file = folder / f"{name}.db"
        inputs.plain(file)
        held = rows_of_file(begin, name)
        base = sqlite3.connect(file)
        done = []
        for _ in range(setting.chance.choice((1, 1, 2))):
            sql = spoil(setting.chance, held)
            try:
                base.execute(sql)
                done.append(sql)
            except sqlite3.Error:
                pass
        base.commit()
        refused = base.execute("pragma foreign_key_check").fetchall()
        found = model.read_rows(base)
        base.close()
        if not done:
            continue
        judge_rows(tally, folder, name, sites, found, refused, f"rows of {name} after {'; '.join(done)}")


def judge_rows(tally, folder, name, sites, found, refused, case):
    status, out, err = program("audit", folder)
    lines = err.decode(errors="replace").split("\n")
    bad = model.first_bad(found, sites)
    if refused:
        # what the database itself refuses is told as such
        tally.tell(case, f"a reference to no row: {lines[0]}", None if status == 3 and lines[0] == "fault NotAStore" else f"{status} {out!r} {err!r}")
    elif bad:
        table, row = bad
        wanted = f"row {row} of the table {table}" if row else f"of the table {table}"
        right = status == 3 and lines[0] == "fault BadRow" and lines[1].endswith(wanted) if row else status == 3 and lines[0] == "fault BadRow" and lines[1].endswith(wanted)
        tally.tell(case, f"bad row of {table}", None if right else f"wanted {wanted}: {status} {out!r} {err!r}")
    else:
        kept = []
        for it in sites.names:
            kept.append(model.record_of(found if it == name else rows_of_file(folder, it), sites))
        misfit = min(model.misfits(kept), default=None)
        wanted = f"misfit {misfit[0]} {sites.names[misfit[1]]}\n" if misfit else None
        right = (status, out.decode()) == (4, wanted) if misfit else status == 0
        tally.tell(case, f"misfit {misfit[0]}" if misfit else "in order", None if right else f"wanted {wanted!r}: {status} {out!r} {err!r}")
