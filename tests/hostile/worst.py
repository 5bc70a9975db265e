"""The documents, scripts and folders within the limits that take most memory and time: told, and not judged, but that each is
answered. For docs/BENCHMARKS.md, and for SECURITY.md, which gives the factor of memory."""
import json
import resource
import shutil
import subprocess
import tempfile
import time

from chains import RECALL, T, program


def measured(words, stdin=b""):
    """Status, seconds of a processor, and the greatest memory in kB, as it is seen every few milliseconds: what wait4 tells begins
    with the size of this process."""
    begun = resource.getrusage(resource.RUSAGE_CHILDREN)
    with tempfile.TemporaryFile() as text:
        text.write(stdin)
        text.seek(0)
        p = subprocess.Popen([RECALL, *map(str, words)], stdin=text, stdout=subprocess.DEVNULL, stderr=subprocess.DEVNULL)
    most = 0
    while p.poll() is None:
        try:
            with open(f"/proc/{p.pid}/status") as status:
                most = max([most, *(int(line.split()[1]) for line in status if line.startswith("VmHWM"))])
        except OSError:
            pass
        time.sleep(0.003)
    ended = resource.getrusage(resource.RUSAGE_CHILDREN)
    return p.returncode, ended.ru_utime + ended.ru_stime - begun.ru_utime - begun.ru_stime, most


def document(events):
    return '{"type":"EPCISDocument","epcisBody":{"eventList":[%s]}}' % ",".join(events)


def item(n):
    return f"{n:x}".rjust(512, "x")


def inputs():
    """Documents by name: text within the limits."""
    bare = '{"type":"ObjectEvent",%s,"action":"OBSERVE","epcList":["x"],"a":%%s}' % T
    yield "2 MB of objects `{\"\":0}` in a member that is passed over", bare % ("[" + ",".join(['{"":0}'] * 280_000) + "]")
    yield "2 MB of objects `{\"a\":0}` in such a member", bare % ("[" + ",".join(['{"a":0}'] * 250_000) + "]")
    yield "2 MB of empty arrays in such a member", bare % ("[" + ",".join(["[]"] * 700_000) + "]")
    yield "2 MB of numbers in such a member", bare % ("[" + ",".join(["0"] * 1_000_000) + "]")
    long = '{"type":"ObjectEvent",%s,"action":"OBSERVE","epcList":[%s],"a":%s}'
    yield "400,000 items beside 9,000 numbers", long % (T, ",".join(['"x"'] * 400_000), "[" + ",".join(["0"] * 9_000) + "]")
    yield "400,000 items beside a text of 1 MB", long % (T, ",".join(['"x"'] * 400_000), '"' + "x" * 1_000_000 + '"')
    yield "127 arrays deep, 8,000 times", bare % ("[" + ",".join(["[" * 120 + "]" * 120] * 8_000) + "]")
    yield "1,000 events of 20 items of 512 bytes", document('{"type":"ObjectEvent",%s,"action":"OBSERVE","epcList":%s}' % (T, json.dumps([item(n * 20 + k) for k in range(20)])) for n in range(1000))
    many = [f"m{n}" for n in range(1000)]
    yield "20 transformations of 1,000 in and 1,000 out", document('{"type":"TransformationEvent",%s,"inputEPCList":%s,"outputEPCList":%s}' % (T, json.dumps([f"{it}-{n}" for it in many]), json.dumps([f"{it}-{n + 1}" for it in many])) for n in range(20))
    yield "1,000 parts of one transformationID", document('{"type":"TransformationEvent",%s,"transformationID":"t","inputEPCList":["i%d"],"outputEPCList":["o%d"]}' % (T, n, n) for n in range(1000))
    yield "1,000 containers, each in the next, shipped", document(['{"type":"AggregationEvent",%s,"action":"ADD","parentID":"c%d","childEPCs":["c%d"]}' % (T, n + 1, n) for n in range(999)] + ['{"type":"ObjectEvent",%s,"action":"OBSERVE","epcList":["c999"],"destinationList":[{"destination":"b"}]}' % T])
    yield "a chain of 1,000 makes", document('{"type":"TransformationEvent",%s,"inputEPCList":["k%d"],"outputEPCList":["k%d"]}' % (T, n, n + 1) for n in range(1000))


def ring(count, items):
    """The lines of so many sites, of which each ships so many items to the next."""
    for n in range(count):
        yield f"site S{n} s{n}"
    for n in range(count):
        yield 'capture S%d {"type":"ObjectEvent",%s,"action":"OBSERVE","epcList":%s,"destinationList":[{"destination":"s%d"}]}' % (n, T, json.dumps([f"i{k}" for k in range(items)]), (n + 1) % count)


def scripts():
    """Scripts by name."""
    yield "1,000 recalls that go round 16 sites", "\n".join([*ring(16, 1000), *(f"recall S0 i{k}" for k in range(1000)), "pump 1", "pump 40", ""])
    many = [f"m{n}" for n in range(1000)]
    make = 'capture A {"type":"TransformationEvent",%s,"inputEPCList":%s,"outputEPCList":%s}' % (T, json.dumps(many), json.dumps([f"o{n}" for n in range(1000)]))
    yield "1,000 questions that 1,001 pairs answer each", "\n".join(["site A a", "site B b", make, *(f"reach A m{n}" for n in range(1000)), ""])
    yield "1,000,000 lines that are refused", "x\n" * 1_000_000


def folders(work):
    """Folders by name, with what is asked of each. What fills them is measured, too."""
    (work / "two").write_text("site A a\nsite B b\n")
    (work / "many").write_text("x\n" * 2000)
    (work / "shipped").write_text('{"type":"ObjectEvent",%s,"action":"OBSERVE","epcList":["x"],"destinationList":[{"destination":"b"}]}' % T)
    yield "2,000 recalls of one item", work / "two", [["capture", "@", "A", work / "shipped"], ["start", "@", "A", "--from", work / "many"], ["run", "@"], ["audit", "@"], ["status", "@"]]
    (work / "sixteen").write_text("".join(f"site S{n} s{n}\n" for n in range(16)))
    lines = [it.split(" ", 2)[2] for it in ring(16, 1000) if it.startswith("capture")]
    for n, it in enumerate(lines):
        (work / f"ring{n}").write_text(it)
    (work / "items").write_text("".join(f"i{k}\n" for k in range(1000)))
    yield "1,000 recalls that go round 16 sites", work / "sixteen", [*(["capture", "@", f"S{n}", work / f"ring{n}"] for n in range(16)), ["start", "@", "S0", "--from", work / "items"], ["run", "@"], ["audit", "@"], ["report", "@", "S0#1"]]


def measure_scripts(tally):
    for name, text in scripts():
        status, seconds, most = measured(["sim"], text.encode())
        tally.tell(f"{name}: sim", "answered", None if status in (0, 1) else f"status {status}")
        print(f"    {seconds:.2f} s, {most / 1024:.0f} MB, a script of {len(text) / 1e6:.2f} MB")


def measure_folders(tally, work):
    for name, sites, asked in folders(work):
        folder = work / "worst"
        shutil.rmtree(folder, ignore_errors=True)
        folder.mkdir()
        program("init", folder, sites)
        for words in asked:
            status, seconds, most = measured([folder if it == "@" else it for it in words])
            tally.tell(f"{name}: {words[0]}", "answered", None if status in (0, 1, 4) else f"status {status}")
            print(f"    {seconds:.2f} s, {most / 1024:.0f} MB")


def run(tally, setting, work):
    asked = {"20 transformations of 1,000 in and 1,000 out": "m0-0", "1,000 parts of one transformationID": "i0", "1,000 containers, each in the next, shipped": "c0", "a chain of 1,000 makes": "k0"}
    (work / "list").write_text("site A a\nsite B b\n")
    for name, text in inputs():
        folder = work / "worst"
        shutil.rmtree(folder, ignore_errors=True)
        folder.mkdir()
        program("init", folder, work / "list")
        (work / "document").write_text(text)
        rest = [("capture", ["capture", folder, "A", work / "document"]), ("lint", ["lint", work / "list", work / "document"])]
        if " items beside " in name:
            rest = [("convert", ["convert", work / "document"])]
        if name in asked:
            rest += [("trace", ["trace", folder, "A", asked[name]]), ("start", ["start", folder, "A", asked[name]]), ("run", ["run", folder])]
        base = measured(["audit", folder])[2]
        for what, words in rest:
            status, seconds, most = measured(words)
            told = f"{seconds:.2f} s, {most / 1024:.0f} MB, {(most - base) * 1024 / len(text):.0f} times the document of {len(text) / 1e6:.2f} MB"
            tally.tell(f"{name}: {what}", "answered", None if status in (0, 1) else f"status {status}")
            print(f"    {told}")
    measure_scripts(tally)
    measure_folders(tally, work)
