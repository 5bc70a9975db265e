"""Two or three programs at once on one folder: each is done, or is told that a file is in use; with --wait all are done. And two
`init` at once in one folder, with the same list and with others: where one is done, the folder is whole and its list is that one's.
After each round SQLite reads every file, the ten conditions are checked by the model, and what was answered has to be there."""
import re
import shutil
import subprocess
import time

from chains import CARTON, RECALL, TANK, T, copy, fits, program, rows


def run(tally, setting, work, made, rounds):
    chance = setting.chance
    folder = work / "twice"
    number = 0
    for n in range(rounds):
        if setting.clock.is_over():
            return
        if n % 25 == 0:
            copy(made.first if n % 50 == 25 else made.whole, folder)
        sites = ["A", "B", "C"] if n % 50 >= 25 else ["dairy", "plant", "shop-1", "shop-2"]
        runs = []
        for _ in range(chance.choice((2, 2, 3))):
            wait = ["--wait", "60"] if chance.random() < 0.5 else []
            kind = chance.choice(["capture", "capture", "lines", "start", "run", "audit", "report", "status", "trace"])
            site = chance.choice(sites)
            ids = []
            if kind in ("capture", "lines"):
                text = []
                for _ in range(1 if kind == "capture" else 5):
                    number += 1
                    ids.append(f"w{number}")
                    text.append('{"type":"ObjectEvent","eventID":"w%d",%s,"action":"OBSERVE","epcList":["i%d"]}' % (number, T, number))
                (work / f"doc{number}").write_text("\n".join(text) + "\n")
                words = ["capture", *wait, folder, site, *(["--lines"] if kind == "lines" else []), work / f"doc{number}"]
            elif kind == "start":
                words = ["start", *wait, folder, site, chance.choice([TANK, CARTON, f"i{max(1, number)}"])]
            elif kind == "trace":
                words = ["trace", *wait, folder, site, chance.choice([TANK, CARTON])]
            elif kind == "report":
                words = ["report", *wait, folder, f"{site}#1"]
            else:
                words = [kind, *wait, folder]
            runs.append((kind, site, ids, wait, subprocess.Popen([RECALL, *map(str, words)], stdin=subprocess.DEVNULL, stdout=subprocess.PIPE, stderr=subprocess.PIPE)))
            time.sleep(chance.choice((0, 0, 0.002, 0.01)))
        told, wrong = [], None
        for kind, site, ids, wait, process in runs:
            words, bad = judged(folder, kind, site, ids, wait, process)
            told.append(words)
            wrong = wrong or bad
        tally.tell(f"round {n}", ", ".join(sorted(told)), wrong or fits(folder))


def judged(folder, kind, site, ids, wait, process):
    try:
        out, err = process.communicate(timeout=150)
    except subprocess.TimeoutExpired:
        process.kill()
        process.communicate()
        return f"{kind} hangs", f"{kind} hangs"
    status = process.returncode
    in_use = status == 3 and re.search(rb"^fault Device\nfile [^\n]*: in use by another program\n", err, re.M)
    words = f"{kind}{' waits' if wait else ''} {'in use' if in_use else status}"
    found = rows(folder, site)
    have = {it[1] for it in found["event"]} if isinstance(found, dict) else set()
    if in_use and wait:
        return words, f"{kind} waited 60 s: {err!r}"
    if not in_use and status not in (0, 1):
        return words, f"{kind}: {status} {out!r} {err!r}"
    if status == 1 and not out.startswith(b"refused "):
        return words, f"{kind}: {out!r}"
    if status == 0 and ids and not set(ids) <= have:
        return words, f"answered, and not kept: {ids}"
    if in_use and set(ids) & have:
        return words, f"told that the file is in use, and kept: {ids}"
    return words, None


def inits(tally, setting, work, rounds):
    chance = setting.chance
    lists = [b"site A a\nsite B b\n", b"site A x\nsite B y\nsite C z\n", b"site C a\nsite B b\nsite A c\n", b"site D d\nsite E e\n"]
    for n, it in enumerate(lists):
        (work / f"list{n}").write_bytes(it)
    for n in range(rounds):
        if setting.clock.is_over():
            return
        folder = work / "twice"
        shutil.rmtree(folder, ignore_errors=True)
        folder.mkdir()
        which = [chance.randrange(len(lists)), chance.randrange(len(lists))]
        if n % 3 == 0:
            which = [0, 3]      # of no common name, so that both come to the list
        runs = []
        for it in which:
            runs.append(subprocess.Popen([RECALL, "init", str(folder), str(work / f"list{it}")], stdout=subprocess.PIPE, stderr=subprocess.PIPE))
            time.sleep(chance.choice((0, 0, 0.001, 0.003, 0.01)))
        outs = [it.communicate(timeout=60) + (it.returncode,) for it in runs]
        done = [it for it, got in zip(which, outs) if got[2] == 0]
        told = ", ".join(sorted(f"{got[2]} {(got[0] or got[1]).decode().split(chr(10))[0]}" for got in outs))
        audit = program("audit", folder)
        wrong = None
        if len(done) == 2:
            wrong = f"both are done: {which}; audit {audit}"
        elif done:
            here = (folder / "sites").read_bytes()
            if here != lists[done[0]] or audit[0] != 0:
                wrong = f"lists {which}, done {done}, the folder's is {[i for i, it in enumerate(lists) if it == here]}; audit {audit[0]} {audit[2].decode().split(chr(10))[:2]}; {told}"
        elif (folder / "sites").exists():
            wrong = f"none is done, and there is a list; audit {audit[0]} {audit[2].decode().split(chr(10))[:2]}; {told}"
        if not wrong and (folder / "sites.new").exists():
            wrong = f"sites.new is left over; {told}"
        tally.tell(f"round {n} lists {which}", told, wrong)
