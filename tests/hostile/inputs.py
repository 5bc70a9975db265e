"""Malicious input, row by row: documents that are cut or deep, lines that are too long, files of other programs, other versions
and other sites, and streams that fail at each call."""
import os
import shutil
import sqlite3

import memory
from chains import CHAIN, program, rows

USUAL = b'{"@context":["https://ref.gs1.org/standards/epcis/2.0.0/epcis-context.jsonld"],"type":"EPCISDocument","schemaVersion":"2.0","creationDate":"2024-05-01T08:00:00.000+02:00","epcisBody":{"eventList":[{"type":"ObjectEvent","eventTime":"2024-05-01T08:00:00.000+02:00","eventTimeZoneOffset":"+02:00","epcList":["urn:epc:id:sgtin:0614141.112345.400"],"action":"OBSERVE","bizStep":"shipping","disposition":"in_transit"},{"type":"TransactionEvent"}]}}'
SYNTAX = b"refused Doc Syntax event 0 field document"
T = '"eventTime":"2024-05-01T08:00:00Z","eventTimeZoneOffset":"+00:00"'
SHIPPED = '{"type":"EPCISDocument","epcisBody":{"eventList":[{"type":"TransformationEvent",%s,"inputEPCList":["x"],"outputEPCList":["y"]},{"type":"ObjectEvent",%s,"action":"OBSERVE","epcList":["y"],"destinationList":[{"type":"location","destination":"b"}]}]}}' % (T, T)


def made(work):
    folder = work / "chain"
    shutil.rmtree(folder, ignore_errors=True)
    folder.mkdir()
    (work / "list").write_text("site A a\nsite B b\n")
    assert program("init", folder, work / "list")[0] == 0
    return folder


def documents(tally, setting, work):
    folder = made(work)
    before = rows(folder, "A")
    for n in setting.some(range(len(USUAL))):
        (work / "doc").write_bytes(USUAL[:n])
        got = program("capture", folder, "A", work / "doc")
        right = got[:2] == (1, SYNTAX + b"\n") and rows(folder, "A") == before
        tally.tell(f"prefix of {n} bytes, a file", "Syntax" if right else f"{got}", None if right else "not Syntax alone")
    (work / "doc").write_bytes(USUAL[:-1])
    lint = program("lint", work / "list", work / "doc")
    tally.tell("lint of a prefix", f"{lint[0]}", None if lint[0] == 1 and lint[1].startswith(b"fault Syntax event 0 field document ") else f"not Syntax: {lint}")
    got = program("capture", folder, "A", "--lines", "-", stdin=b"\n".join(USUAL[:n] for n in range(1, len(USUAL))) + b"\n")
    lines = got[1].split(b"\n")[:-2]
    right = got[0] == 1 and len(lines) == len(USUAL) - 1 and all(it.startswith(SYNTAX + b" -:") for it in lines)
    tally.tell("all prefixes as lines", f"{len(lines)} lines", None if right else f"{got[1][-200:]!r}")
    got = program("capture", folder, "A", "--each", "-", stdin=USUAL[:-1])
    tally.tell("a prefix with --each", f"{got[0]}", None if got[1].startswith(SYNTAX + b" -\n") else f"not Syntax: {got}")
    got = program("sim", stdin=b"site A a\nsite B b\n" + b"".join(b"capture A " + USUAL[:n] + b"\n" for n in range(1, len(USUAL))))
    right = got == (1, (SYNTAX + b"\n") * (len(USUAL) - 1), b"")
    tally.tell("all prefixes in a script", f"{got[1].count(SYNTAX)} times", None if right else f"{got[1][-200:]!r} {got[2]!r}")
    spoilt_bytes(tally, setting, work, folder)
    (work / "doc").write_bytes(USUAL)
    folder = made(work)
    got = program("capture", folder, "A", work / "doc")
    tally.tell("the whole", f"{got[1]!r}", None if got[:2] == (0, b"captured 1 known 0 skipped 1\n") else "not captured")


def spoilt_bytes(tally, setting, work, folder):
    deep = lambda n, o, c: USUAL[:-1] + b',"x":' + o * n + b"0" * (o != b"[") + c * n + b"}"
    cases = [("FF at its end", USUAL + b"\xff", True), ("FF in front", b"\xff" + USUAL, True), ("FF in a text", USUAL.replace(b"in_transit", b"in\xfftransit"), True)]
    for n in (125, 126, 127, 128, 129, 200, 100_000):
        cases += [(f"arrays {n} deep in a member", deep(n, b"[", b"]"), n + 1 > 127), (f"arrays {n} deep alone", b"[" * n + b"]" * n, n > 127)]
        cases += [(f"objects {n} deep in a member", deep(n, b'{"a":', b"}"), n + 1 > 127)]
    for name, document, syntax in cases:
        for how in ("a file", "a line"):
            (work / "doc").write_bytes(document)
            before = rows(folder, "A")
            got = program("capture", folder, "A", *(["--lines"] if how == "a line" else []), work / "doc")
            told = got[1].split(b"\n")[0]
            right = told.startswith(SYNTAX) == syntax and got[0] in (0, 1) and (not syntax or rows(folder, "A") == before)
            tally.tell(f"{name}, {how}", told.decode().split(" /")[0][:70], None if right else f"{got}")


def long_line(tally, setting, work):
    sites = b"site A a\nsite B b\n"
    pad = lambda n, end=b"": b"reach A x" + b" " * (n - 9 - len(end)) + end
    good = b"pair A uri x\npairs 1\n"
    for name, text, wanted in (
        ("16,777,216 bytes", sites + pad(16_777_216) + b"\n", (0, good, b"")),
        ("16,777,217 bytes", sites + b"reach A x\n" + pad(16_777_217) + b"\nreach A x\n", (3, good, b"fault LineTooLong\n")),
        ("16,777,217 bytes with CR", sites + pad(16_777_217, b"\r") + b"\n", (3, b"", b"fault LineTooLong\n")),
        ("16,777,216 bytes with CR", sites + pad(16_777_216, b"\r") + b"\n", (0, good, b"")),
        ("16,777,217 bytes without an end", sites + pad(16_777_217), (3, b"", b"fault LineTooLong\n")),
        ("16,777,216 bytes without an end", sites + pad(16_777_216), (0, good, b"")),
        ("a comment of 16,777,217 bytes", sites + b"#" * 16_777_217 + b"\n", (3, b"", b"fault LineTooLong\n")),
    ):
        got = program("sim", stdin=text)
        right = got[:2] == wanted[:2] and got[2].startswith(wanted[2])
        tally.tell(f"line of {name}", f"{got[0]} {got[2].split(bytes([10]))[0]!r}", None if right else f"{got[0]} {got[1][:60]!r} {got[2][:60]!r}")


def shimmed(words, stdin, **settings):
    env = {**os.environ, "LD_PRELOAD": str(memory.SHIMS / "failio.so"), **{f"FAILIO_{k}": str(v) for k, v in settings.items()}}
    return program(*words, stdin=stdin, env=env)


def readers(tally, setting, work, tools):
    """The standard input fails at its k-th read, for each k."""
    script = (CHAIN / "recall.script").read_bytes()
    whole_answer = program("sim", stdin=script)
    # A read of a pipe may give less than it was asked for, and then the k-th comes elsewhere; one of a file doesn't.
    file = work / "script"
    file.write_bytes(script)
    cases = [(chunk, k, errno) for chunk in (1, 7, 64, 4096) for k in range(1, len(script) // chunk + 3, 13 if chunk == 1 else 1) for errno in (5, 12, 4)]
    wanted_of = {}
    for chunk, k, errno in setting.some(cases):
        begun = script[: chunk * (k - 1)]
        whole = begun[: begun.rfind(b"\n") + 1]
        if whole not in wanted_of:
            wanted_of[whole] = program("sim", stdin=whole)[1]
        wanted = wanted_of[whole]
        got = shimmed(["sim"], file, FD=0, KIND="r", AT=k, CHUNK=chunk, ERRNO=errno)
        fault = got[2].split(b"\n")[0]
        right = got[0] == 3 and got[1] == wanted and (fault == b"fault Read" or errno == 12 and fault == b"fault NoMemory") or (errno == 4 or chunk * (k - 1) > len(script)) and got == whole_answer
        tally.tell(f"sim read {k} of {chunk} bytes, errno {errno}", f"status {got[0]} {fault.decode()}", None if right else f"{got[1][-80:]!r} wanted {wanted[-80:]!r} {got[2]!r}")
    # a document, a list of lines and EPCs from a pipe that fails
    folder = made(work)
    sources = ((["capture", folder, "A", "-"], SHIPPED.encode()), (["capture", folder, "A", "--lines", "-"], (SHIPPED + "\n").encode() * 3), (["capture", folder, "A", "--each", "-"], SHIPPED.encode()),
               (["start", folder, "A", "--from", "-"], b"x\ny\n"))
    for words, text, chunk, k in setting.some([(words, text, chunk, k) for words, text in sources for chunk in (50, 4096) for k in range(1, len(text) // chunk + 3)]):
        before = rows(folder, "A")
        got = shimmed(words, text, FD=0, KIND="r", AT=k, CHUNK=chunk, ERRNO=5)
        right = got[0] == 3 and got[2].startswith(b"fault Read\nfile -") or chunk * (k - 1) > len(text)
        kept = rows(folder, "A") == before
        tally.tell(f"{words[0]} {words[3]} read {k} of {chunk} bytes", f"status {got[0]} {got[2].split(bytes([10]))[0].decode()} {'record as before' if kept else 'record new'}", None if right and (kept or got[1]) else f"{got}")


def writers(tally, setting, work, tools):
    """The standard output fails from its k-th write on, for each k."""
    script = (CHAIN / "recall.script").read_bytes()
    folder = made(work)
    (work / "doc").write_text(SHIPPED)
    program("capture", folder, "A", work / "doc")
    program("start", folder, "A", "x")
    asks = [(["sim"], script), *((words, b"") for words in (["report", folder, "A#1"], ["report", folder, "A#1", "--json", "--events"], ["audit", folder], ["status", folder, "A#1"], ["items", folder, "A"], ["trace", folder, "A", "x", "--dot"], ["lint", work / "list", work / "doc"]))]
    wholes = [program(*words, stdin=text) for words, text in asks]
    for place, chunk, k, errno in setting.some([(place, chunk, k, errno) for place in range(len(asks)) for chunk in (1, 7, 100, 0) for k in ((1, 2, 3, 9, 40) if place else range(1, 60)) for errno in (5, 28, 32)]):
        (words, text), whole = asks[place], wholes[place]
        got = shimmed(words, text, FD=1, KIND="w", AT=k, ERRNO=errno, ON=1, **({"CHUNK": chunk} if chunk else {}))
        right = got[0] == 3 and whole[1].startswith(got[1]) and got[2].startswith((b"fault Write\n", b'{"fault":"Write"}\n')) or got[:2] == whole[:2]
        tally.tell(f"{words[0]} write {k} of {chunk or 'all'}, errno {errno}", f"status {got[0]} {got[2][:11]!r}", None if right else f"{got}")


def plain(file):
    """Makes of a site's file one without sums of its pages, which SQLite alone would spoil."""
    base = sqlite3.connect(file)
    tables = base.execute("select name, sql from sqlite_schema where type = 'table' order by rowid").fetchall()
    held = {name: base.execute(f"select * from {name}").fetchall() for name, _ in tables}
    base.close()
    for it in (file, *(file.with_name(f"{file.name}{end}") for end in ("-wal", "-shm"))):
        it.unlink(missing_ok=True)
    base = sqlite3.connect(file)
    for name, sql in tables:
        base.execute(sql)
        for row in held[name]:
            base.execute(f"insert into {name} values ({', '.join('?' * len(row))})", row)
    base.commit()
    base.close()


def changed(file, sql):
    plain(file)
    base = sqlite3.connect(file)
    base.executescript(sql)
    base.commit()
    base.close()


def other_files(tally, setting, work):
    """Files of another program, another version, another site, and rows that no site writes."""
    base = made(work)
    (work / "doc").write_text(SHIPPED)
    program("capture", base, "A", work / "doc")
    program("start", base, "A", "x")
    for _ in range(20):
        if program("run", base)[1] == b"A#1 ended\n":
            break
    keep = work / "keep"
    shutil.rmtree(keep, ignore_errors=True)
    shutil.copytree(base, keep)

    def foreign(at):
        for it in ("A.db", "A.db-wal"):
            (at / it).unlink(missing_ok=True)
        c = sqlite3.connect(at / "A.db")
        c.execute("create table t (a)")
        c.commit()
        c.close()

    def other(at):
        for end in ("", "-wal"):
            shutil.copy(at / f"B.db{end}", at / f"A.db{end}")

    sql = lambda text: lambda at: changed(at / "A.db", text)
    cases = [
        ("one table t of another program", "NotAStore", foreign, "t isn't of a site"),
        ("version 7", "Version", sql("update store set version = 7"), "version 7"),
        ("B's file as A", "OtherSite", other, "the file of B"),
        ("(9, 1, 0, 1) in seen", "BadRow", sql("insert into seen values (9, 1, 0, 1)"), "row 1 of the table seen"),
        ("event 1 of kind 1", "BadRow", sql("update event set kind = 1 where no = 1"), "row 1 of the table part"),
    ]
    for name, fault, spoil, told in cases:
        shutil.rmtree(base)
        shutil.copytree(keep, base)
        spoil(base)
        before = {it.name: it.read_bytes() for it in base.iterdir() if not it.name.endswith("-wal")}
        for words in (["audit", base], ["report", base, "A#1"], ["capture", base, "A", work / "doc"], ["start", base, "A", "y"], ["run", base], ["items", base, "A"], ["trace", base, "A", "x"]):
            got = program(*words)
            right = got[0] == 3 and got[1] == b"" and got[2].startswith(b"fault %s\nfile %s/A.db: %s\n" % (fault.encode(), str(base).encode(), told.encode()))
            same = before == {it.name: it.read_bytes() for it in base.iterdir() if not it.name.endswith("-wal")}
            tally.tell(f"{name}, {words[0]}", f"{got[2].split(bytes([10]))[0].decode()} {told}", None if right and same else f"{got} {'' if same else 'a file changed'}")
