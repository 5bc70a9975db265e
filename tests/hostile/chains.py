"""What the campaigns share: folders of sites, each command with what it begins with and the records that its steps lead
through, and a judge that tells of a run under a fault whether its answer and what it left are what is promised.

A new command, or a new option, is one line in `commands`: every campaign tries it then, and `uncovered` tells which words of
`recall --help` have no line. RECALL names the program, SECONDS_EACH how long one run of it may take.
"""
import collections
import contextlib
import hashlib
import os
import pathlib
import re
import shutil
import sqlite3
import subprocess
import sys
import tempfile

import model

HERE = pathlib.Path(__file__).resolve().parent
TOP = HERE.parent.parent
RECALL = os.environ.get("RECALL", str(TOP / "crates/recall_cli/out/recall_cli"))
CHAIN = TOP / "examples/dairy"
FIRST = TOP / "tests/data/first-version"
TANK = "urn:epc:id:sgtin:9521321.000011.tank-7"
TANK_KEY = "sgtin 09521321000117 tank-7"
TANK_SCAN = "(01)09521321000117(21)tank-7"
CARTON = "https://id.gs1.org/01/09521321000179/21/1"
SECONDS = float(os.environ.get("SECONDS_EACH", "60"))
# How a command ends that answers: done, refused, or what --exit-code asks for.
ANSWERS = (0, 1, 5)
T = '"eventTime":"2024-05-01T08:00:00Z","eventTimeZoneOffset":"+00:00"'


def program(*words, stdin=b"", env=None, before=(), cwd=None, seconds=SECONDS):
    """Runs the program: status (below 0 a signal's, or "hangs"), output, errors. Its standard input is a pipe with these bytes, or a file."""
    with open(stdin, "rb") if isinstance(stdin, pathlib.PurePath) else contextlib.nullcontext() as file:
        given = {"stdin": file} if file else {"input": stdin}
        try:
            ran = subprocess.run([*before, RECALL, *map(str, words)], **given, capture_output=True, timeout=seconds, env=env, cwd=cwd)
        except subprocess.TimeoutExpired as late:
            return "hangs", late.stdout or b"", late.stderr or b""
    return ran.returncode, ran.stdout, ran.stderr


def must(*words, status=0, stdin=b""):
    got = program(*words, stdin=stdin)
    if got[0] != status:
        sys.exit(f"{words}: {got}")
    return got[1]


READ = {}
AUDITED = {}


def rows(folder, site):
    """The rows of a site's file as SQLite reads them (a dict by table), a text that says what is wrong with it, or None."""
    file = folder / f"{site}.db"
    if not file.exists():
        return None
    log = file.with_name(f"{site}.db-wal")
    held = (file.read_bytes(), log.read_bytes() if log.exists() else b"")
    digest = hashlib.sha256(b"%d " % len(held[0]) + held[0] + held[1]).digest()
    if digest not in READ:
        with tempfile.TemporaryDirectory(dir=folder.parent) as there:
            copied = pathlib.Path(there) / "copy.db"
            copied.write_bytes(held[0])
            if log.exists():
                copied.with_name("copy.db-wal").write_bytes(held[1])
            READ[digest] = read_copy(copied, folder)
    return READ[digest]


def read_copy(copied, folder):
    try:
        base = sqlite3.connect(copied)
        try:
            if not base.execute("select count(*) from sqlite_schema").fetchone()[0]:
                return "empty"
            found = model.read_rows(base)
            sound = base.execute("pragma integrity_check").fetchall()
            if sound != [("ok",)]:
                return f"integrity {sound}"
        finally:
            base.close()
        found = as_second(found)
        if (folder / "sites").exists():
            sites = model.sites_of((folder / "sites").read_text())
            if model.rows_of(model.record_of(found, sites), sites) != found:
                return "rows of no record"
        return found
    except (sqlite3.Error, ValueError, KeyError, IndexError) as error:
        return f"unreadable: {error!r}"


def as_second(found):
    """The rows of a file of the first version as those of the second."""
    if isinstance(found, dict) and found["store"] and found["store"][0][1] == 1:
        found = {**found, "store": [(1, 2, *found["store"][0][2:])]}
    return found


def names(folder):
    return sorted(it.name[:-3] for it in folder.glob("*.db"))


def record(folder):
    return {site: rows(folder, site) for site in names(folder)}


def copy(of, to):
    if to.exists():
        shutil.rmtree(to)
    shutil.copytree(of, to, symlinks=True)
    return to


def fits(folder):
    """What is wrong with the records of a folder as a whole, by the model: a misfit, or an end that isn't exact."""
    sites = model.sites_of((folder / "sites").read_text())
    records = []
    for name in sites.names:
        found = rows(folder, name)
        if not isinstance(found, dict):
            return f"{name}: {found}"
        records.append(model.record_of(found, sites))
    bad = min(model.misfits(records), default=None)
    if bad:
        return f"misfit {bad}"
    bad = model.inexact(records)
    return f"recall {bad} has ended and isn't exact" if bad else None


def event(kind, members, number):
    return '{"type":"%s","eventID":"h%s",%s,%s}' % (kind, number, T, members)


class Chains:
    """Folders in which the commands begin, and files that they read."""

    def __init__(self, work):
        self.work = work
        self.files = work / "files"
        self.files.mkdir()
        self.write_files()
        self.empty = work / "empty"
        self.empty.mkdir()
        self.made = work / "made"
        self.made.mkdir()
        must("init", self.made, CHAIN / "sites")
        self.captured = copy(self.made, work / "captured")
        must("capture", self.captured, "dairy", CHAIN / "dairy.json")
        self.whole = copy(self.captured, work / "whole")
        must("capture", self.whole, "plant", CHAIN / "plant.json")
        must("capture", self.whole, "shop-1", CHAIN / "shop-1.json")
        must("capture", self.whole, "shop-2", CHAIN / "shop-2.json")
        self.started = copy(self.whole, work / "started")
        must("start", self.started, "plant", TANK)
        self.ended = copy(self.started, work / "ended")
        for _ in range(20):
            if must("run", self.ended) == b"plant#1 ended\n":
                break
        self.holding = copy(self.started, work / "holding")
        (self.holding / "copy").mkdir()
        # two sites and one message, for the long lists of a run's calls
        self.two = work / "two"
        self.two.mkdir()
        (self.files / "two").write_text("site A a\nsite B b\n")
        must("init", self.two, self.files / "two")
        must("capture", self.two, "A", self.files / "shipped.json")
        must("start", self.two, "A", "x")
        self.first = work / "first"
        self.first.mkdir()
        for it in FIRST.iterdir():
            if it.name == "sites" or ".db" in it.name:
                shutil.copy(it, self.first)
                (self.first / it.name).chmod(0o644)

    def write_files(self):
        obs = '"action":"OBSERVE","epcList":["%s"]'
        to = ',"destinationList":[{"type":"location","destination":"%s"}]'
        (self.files / "shipped.json").write_text(event("ObjectEvent", obs % "x" + to % "b", "s"))
        # of many documents: fresh, known, refused, a pack, a shipment
        lines = [
            event("ObjectEvent", obs % "m1", 1),
            event("AggregationEvent", '"action":"ADD","parentID":"pallet","childEPCs":["m1","m2"]', 2),
            event("ObjectEvent", obs % "a b", 3),
            event("ObjectEvent", obs % "m1", 1),
            event("ObjectEvent", obs % "pallet" + to % "https://id.gs1.org/414/9521321000032", 4),
            event("TransformationEvent", '"inputEPCList":["m1"],"outputEPCList":["m3"]', 5),
        ]
        (self.files / "lines").write_text("\n".join(lines) + "\n")
        for n, line in enumerate(lines):
            (self.files / f"line{n + 1}").write_text(line)
        (self.files / "each").write_text('{"type":"EPCISDocument","epcisBody":{"eventList":[%s]}}' % ",".join(lines))
        (self.files / "epcs").write_text(f"{TANK}\nnobody\n{CARTON}\n\n")


# begin: the folder in which it begins; words with @ for its folder; steps: the words that lead from one state to the next, each
# of which prints a line once it is kept.
Command = collections.namedtuple("Command", "name kind begin words steps")


def commands(chains):
    f = chains.files
    lines = [f / f"line{n}" for n in range(1, 7)]
    captures = [["capture", "@", "plant", it] for it in lines]
    starts = [["start", "@", "plant", it] for it in (TANK, "nobody", CARTON)]
    one = [["start", "@", "plant", TANK]]
    plant = ["capture", "@", "plant", CHAIN / "plant.json"]
    return [
        Command("init", "init", chains.empty, ["init", "@", CHAIN / "sites"], []),
        Command("init-json", "init", chains.empty, ["init", "--wait", "1", "--json", "@", CHAIN / "sites"], []),
        Command("capture", "steps", chains.captured, plant, [plant]),
        Command("capture-json", "steps", chains.captured, ["capture", "--wait", "1", "--json", *plant[1:]], [plant]),
        Command("capture-many", "steps", chains.captured, ["capture", "@", "plant", *lines], captures),
        Command("capture-lines", "steps", chains.captured, ["capture", "--max-bytes", "1000000", "@", "plant", "--lines", f / "lines"], captures),
        Command("capture-each", "steps", chains.captured, ["capture", "@", "plant", "--each", f / "each"], captures),
        Command("start", "steps", chains.whole, ["start", "@", "plant", TANK], one),
        Command("start-key", "steps", chains.whole, ["start", "--wait", "1", "--json", "@", "plant", "--key", TANK_KEY], one),
        Command("start-contents", "steps", chains.whole, ["start", "@", "plant", TANK, "--contents"], one),
        # Each site's line is followed by its totals, which keep nothing.
        Command(
            "start-each-site",
            "steps",
            chains.whole,
            ["start", "@", "plant", TANK, "--each-site"],
            [["start", "@", "dairy", TANK], ["status", "@"], ["start", "@", "plant", TANK]],
        ),
        Command("start-gaps", "question", chains.ended, ["start", "@", "shop-1", "plant#1", "--gaps"], []),
        Command("start-scan", "steps", chains.whole, ["start", "@", "plant", "--scan", TANK_SCAN], one),
        Command("start-many", "steps", chains.whole, ["start", "@", "plant", TANK, "nobody", CARTON], starts),
        Command("start-from", "steps", chains.whole, ["start", "--max-bytes", "1000", "@", "plant", "--from", f / "epcs"], starts),
        Command("dry-run", "question", chains.whole, ["start", "@", "plant", TANK, "--dry-run"], []),
        Command("run", "run", chains.started, ["run", "@", "--turns", "300"], []),
        Command("run-two", "run", chains.two, ["run", "@", "--turns", "300"], []),
        Command("run-json", "run", chains.two, ["run", "--wait", "1", "--json", "@", "--exit-code"], []),
        Command("run-unless", "run", chains.started, ["run", "@", "--turns", "300", "--unless-gaps"], []),
        Command("run-until", "run", chains.started, ["run", "@", "--turns", "2", "--until-ended"], []),
        Command("report", "question", chains.ended, ["report", "@", "plant#1"], []),
        Command("report-brief", "question", chains.ended, ["report", "@", "plant#1", "--brief", "--events"], []),
        Command("report-json", "question", chains.ended, ["report", "--wait", "1", "@", "plant#1", "--json", "--events"], []),
        Command("report-csv", "question", chains.ended, ["report", "@", "plant#1", "--csv"], []),
        Command("report-dot", "question", chains.ended, ["report", "@", "plant#1", "--dot"], []),
        Command("audit", "question", chains.ended, ["audit", "@"], []),
        Command("audit-ended", "question", chains.ended, ["audit", "--ended", "@"], []),
        Command("audit-wait", "question", chains.ended, ["audit", "--json", "--wait", "2", "@", "--exit-code"], []),
        Command("trace", "question", chains.whole, ["trace", "@", "plant", TANK, "--events"], []),
        Command("trace-back", "question", chains.whole, ["trace", "@", "shop-1", CARTON, "--back", "--json"], []),
        Command("trace-brief", "question", chains.whole, ["trace", "--wait", "1", "@", "plant", "--key", TANK_KEY, "--brief"], []),
        Command("report-csv-guarded", "question", chains.ended, ["report", "@", "plant#1", "--csv-guarded", "--events"], []),
        Command("trace-contents", "question", chains.whole, ["trace", "@", "plant", TANK, "--contents"], []),
        Command("trace-csv", "question", chains.whole, ["trace", "@", "plant", "--scan", TANK_SCAN, "--csv", "--events"], []),
        Command("trace-csv-guarded", "question", chains.whole, ["trace", "@", "plant", TANK, "--csv-guarded"], []),
        Command("trace-dot", "question", chains.whole, ["trace", "@", "plant", TANK, "--dot"], []),
        Command("status", "question", chains.started, ["status", "@", "plant#1"], []),
        Command("status-code", "question", chains.ended, ["status", "--wait", "1", "--json", "@", "--exit-code"], []),
        Command("items", "question", chains.whole, ["items", "@", "plant", "sgtin"], []),
        Command("items-in", "question", chains.whole, ["items", "@", "plant", "--in", TANK, "11"], []),
        Command("items-in-key", "question", chains.whole, ["items", "@", "plant", "--in", TANK_KEY, "--key"], []),
        Command("items-in-scan", "question", chains.whole, ["items", "@", "plant", "--in", TANK_SCAN, "--scan", "--json"], []),
        Command("copy", "copy", chains.holding, ["copy", "--wait", "1", "--json", "@", "@/copy"], []),
        Command("coverage", "question", chains.ended, ["coverage", "@"], []),
        Command("coverage-json", "question", chains.whole, ["coverage", "--wait", "1", "--json", "@"], []),
        Command("items-json", "question", chains.whole, ["items", "--wait", "1", "--json", "@", "plant"], []),
        Command("gaps", "question", chains.whole, ["gaps", "@"], []),
        Command("gaps-all", "question", chains.whole, ["gaps", "@", "--all"], []),
        Command("packs", "question", chains.whole, ["packs", "--wait", "1", "--json", "@", "--dry-run"], []),
        Command("packs-site", "question", chains.whole, ["packs", "@", "--site", "shop-1"], []),
        Command("gaps-json", "question", chains.whole, ["gaps", "--wait", "1", "--json", "@", "--exit-code"], []),
        Command("lint", "question", chains.whole, ["lint", "@/sites", f / "lines", f / "each", "--site", "plant"], []),
        Command("lint-json", "question", chains.whole, ["lint", "--json", "--max-bytes", "1000000", "@/sites", f / "each"], []),
        Command("convert", "question", chains.whole, ["convert", f / "lines", f / "each"], []),
        Command("convert-lots", "question", chains.whole, ["convert", "--lots", "--links", "--keep-errors", "--json", "--max-bytes", "1000000", f / "lines"], []),
        Command("convert-places", "question", chains.whole, ["convert", "--places", "@/sites", f / "lines"], []),
        Command("help", "question", chains.whole, ["help", "run"], []),
        Command("help-option", "question", chains.whole, ["run", "--help"], []),
        Command("version", "question", chains.whole, ["--version"], []),
        Command("sim", "question", chains.whole, ["sim"], []),
        Command("migrate", "migrate", chains.first, ["report", "@", "A#1"], []),
        Command("migrate-run", "migrate-run", chains.first, ["run", "@", "--turns", "300"], []),
        Command("migrate-capture", "steps", chains.first, ["capture", "@", "A", f / "line1", f / "line2"], [["capture", "@", "A", f / "line1"], ["capture", "@", "A", f / "line2"]]),
    ]


def uncovered(chains):
    """The commands of `recall --help`, and the options of each, that no line has: a list of texts."""
    told = must("--help").decode()
    section = re.split(r"\n(?=[A-Z][A-Za-z ]*:\n)", told)
    listed = next((it for it in section if it.startswith("Commands:")), "")
    wanted = set(re.findall(r"^  ([a-z][a-z-]*)", listed, re.M))
    if not wanted:
        return ["no command is listed by --help"]
    have = collections.defaultdict(set)
    for command in commands(chains):
        have[command.words[0]] |= {str(it) for it in command.words[1:]}
    lacks = [name for name in sorted(wanted) if name not in have]
    for name in sorted(wanted - {"help"}):
        options = set(re.findall(r"^ +(?:-[A-Za-z], )?(--[a-z-]+)", must(name, "--help").decode(), re.M))
        lacks += [f"{name} {it}" for it in sorted(options - {"--help", "--version"}) if it not in have[name]]
    return lacks


class Count:
    """One line a case, and a count."""

    def __init__(self, name, quiet=False):
        self.name, self.cases, self.kinds, self.odd, self.quiet = name, 0, collections.Counter(), [], quiet

    def tell(self, case, what, departs=None):
        self.cases += 1
        self.kinds[what] += 1
        if departs or not self.quiet:
            print(f"{case}: {what}" + (f"  DEPARTS: {departs}" if departs else ""), flush=True)
        if self.quiet and self.cases % 1000 == 0:
            print(f"# {self.name}: {self.cases} cases so far", flush=True)
        if departs:
            self.odd.append((case, what, departs))


FAULT = re.compile(rb'(?:^|\n)(?:fault |\{(?:"cause":"[^"\n]*",)?"fault":")(\w+)')


def is_of_loader(status, err):
    return status == 127 and (b"error while loading shared libraries" in err or b"cannot allocate TLS" in err or b"cannot create cache" in err)


class Judge:
    """Tells whether what a command answered and left is what is promised."""

    def __init__(self, command, work):
        self.command, self.folder = command, work / f"at-{command.name}"
        done = copy(command.begin, work / f"done-{command.name}")
        self.status, self.answer, self.errors = program(*self.words(done))
        if self.status not in ANSWERS:
            sys.exit(f"{command}: {self.status} {self.answer} {self.errors}")
        self.errors = self.errors.replace(str(done).encode(), b"@")
        self.answer = self.answer.replace(str(done).encode(), b"@")
        self.states = [record(command.begin)]
        if command.kind == "steps":
            at = copy(command.begin, work / "states")
            for words in command.steps:
                program(*[at if it == "@" else it for it in words])
                self.states.append(record(at))
            if record(done) != self.states[-1]:
                sys.exit(f"{command.name}: the steps one by one leave another record than all at once")
        elif command.kind == "init":
            self.states.append(record(done))
        if self.is_run():
            self.end(done)
            self.final = program("audit", done)[:2]

    def is_run(self):
        return self.command.kind in ("run", "migrate-run")

    def words(self, folder):
        return [folder if it == "@" else str(it).replace("@/", f"{folder}/") if str(it).startswith("@/") else it for it in self.command.words]

    def fresh(self):
        return copy(self.command.begin, self.folder)

    @staticmethod
    def end(folder):
        for _ in range(30):
            if b"open" not in program("run", folder)[1]:
                return

    def left(self):
        """What is kept: the numbers of the states that it is, and what is wrong with it."""
        now = record(self.folder)
        if self.command.kind == "init":
            return self.left_of_init(now)
        if self.is_run():
            bad = fits(self.folder)
            if bad:
                return "between", bad
            before = self.states[0]
            for site, found in now.items():
                if found["event"] != before[site]["event"] or found["part"] != before[site]["part"] or len(found["recall"]) != len(before[site]["recall"]):
                    return "between", f"the run changed events or recalls of {site}"
            return "between", None
        copied = self.folder / "copy"
        if self.command.kind == "copy" and (copied / "sites").exists() and record(copied) != self.states[0]:
            return "copied", "a list beside files that are no copy"
        places = [n for n, it in enumerate(self.states) if it == now]
        if not places:
            third = [s for s in {*now, *self.states[0]} if now.get(s) not in [it.get(s) for it in self.states]]
            return f"third at {third}", "a third record"
        return places, None

    def audited(self):
        """What an audit says of the folder; the same bytes are asked once."""
        digest = hashlib.sha256(b"".join(it.name.encode() + b"\0%d\0" % it.stat().st_size + it.read_bytes() for it in sorted(self.folder.iterdir()) if it.is_file())).digest()
        if digest not in AUDITED:
            AUDITED[digest] = program("audit", self.folder)
        return AUDITED[digest]

    def left_of_init(self, now):
        folder = self.folder
        if (folder / "sites").exists():
            whole = (folder / "sites").read_bytes() == (CHAIN / "sites").read_bytes()
            status, out, err = program("audit", folder)
            if whole and now == self.states[1] and (status, out) == (0, b""):
                return "whole", None
            return "list", f"a list that is {'whole' if whole else 'cut'}, audit {status} {err!r}"
        there = names(folder)
        again = program("init", folder, CHAIN / "sites")
        if there and again[0] == 1 and again[1].startswith(b"refused Exists"):
            return "files", None
        if not there and again[0] == 0:
            return "nothing", None
        return "nothing", f"init again: {again}"

    def after(self, told=0, whole=False):
        """What was left after a stop, of which `told` lines of the answer were printed."""
        kept, wrong = self.left()
        if wrong or self.command.kind == "init":
            if whole and kept != "whole" and not wrong:
                wrong = "answered, and not kept"
            return str(kept), wrong
        if kept == "between":
            name = "between"
        elif len(self.states) == 1:
            name = "as it was"
        else:
            name = "old" if 0 in kept else "new" if len(self.states) - 1 in kept else "some"
        if self.command.kind == "steps":
            least = min(told, len(self.states) - 1)
            if not any(n >= least for n in kept):
                return name, f"{told} lines were answered, and state {kept} is kept"
            if not any(n <= told + 1 for n in kept):
                return name, f"{told} lines were answered, and state {kept} is kept already"
        status, out, err = self.audited()
        if status != 0:
            return name, f"audit ends with {status} {out!r} {err!r}"
        if self.is_run():
            self.end(self.folder)
            bad = fits(self.folder)
            if bad or program("audit", self.folder)[:2] != self.final:
                return name, f"further runs don't end it: {bad} {program('audit', self.folder)}"
        return name, None

    def judge(self, status, out, err):
        """What was answered and left, and how that departs."""
        if is_of_loader(status, err):
            return "not started", None
        out = out.replace(str(self.folder).encode(), b"@")
        err = err.replace(str(self.folder).encode(), b"@")
        run = self.is_run()
        fault = FAULT.search(err)
        told = fault[1].decode() if fault else "-"
        kept, wrong = self.after(out.count(b"\n") if not run else 0, status in (0, 1) and self.command.kind == "init")
        what = f"status {status} {told} record {kept}"
        if wrong:
            return what, f"{wrong}; {out!r} {err!r}"
        if status == "hangs" or status < 0:
            return what, "it hangs" if status == "hangs" else f"signal {-status}"
        if run and status == 0:
            bare = lambda text: sorted(re.sub(rb' (ended|open)$|"ended":(true|false)', b"", it) for it in text.split(b"\n"))
            if bare(out) != bare(self.answer):
                return what, f"answered {out!r}"
            return what + (" told " + re.sub(r"\d+", "N", err.decode().split("\n")[0])[:60] if err else ""), None
        if status == self.status and not fault:
            if out != self.answer:
                return what, f"answered {out!r}"
            if self.command.kind == "steps" and record(self.folder) != self.states[-1]:
                return what, "answered, and not kept"
            if err != self.errors:
                return what + " told otherwise", None if status in ANSWERS and self.errors.startswith(err) else f"told {err!r} in place of {self.errors!r}"
            return what, None
        if status == 3:
            if not fault:
                return what, f"a fault that isn't told: {err!r}"
            # Reports and traces are written as they are made: where memory runs out, a beginning of them stands.
            may_be_cut = told == "Write" or told == "NoMemory" and self.command.words[0] in ("report", "trace")
            if out and not run and not (self.answer.startswith(out) and (out.endswith(b"\n") or may_be_cut)):
                return what, f"answered {out!r} beside a fault"
            return what, None
        return what, f"status {status}: {out!r} {err!r}"


def chosen(chains, work, asked=(), leave=()):
    for command in commands(chains):
        if command.name not in leave and (not asked or command.name in asked):
            yield Judge(command, work)
