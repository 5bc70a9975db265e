"""Refuses the N-th allocation of each command and of scripts, N upwards until a run isn't touched, or it and all later ones;
and shortens reads and writes.

What is promised: the answer with ample memory, or `fault NoMemory` with the record before the step or the one after it (of
several steps, each that was answered is kept); and the same words again, with ample memory, then do the rest.
"""
import os
import re
import sys

from chains import ANSWERS, CHAIN, program, record

SHIMS = None


def preloaded(words, shim, stdin=b"", **settings):
    env = {**os.environ, "LD_PRELOAD": str(SHIMS / shim), **{k: str(v) for k, v in settings.items()}}
    return program(*words, env=env, stdin=stdin)


def allocations(words, work, stdin=b""):
    """How many allocations a run makes, or 0 where the library isn't asked for any."""
    count = work / "count"
    count.unlink(missing_ok=True)
    preloaded(words, "failmalloc.so", stdin=stdin, FAIL_COUNT=count)
    return int.from_bytes(count.read_bytes(), sys.byteorder) if count.exists() else 0


def places(calls, most):
    """Numbers of allocations: all, or so many, with the first and the last ones."""
    if calls <= most:
        return range(1, calls + 1)
    step = calls / most
    return sorted({1 + int(n * step) for n in range(most)} | set(range(1, 40)) | set(range(max(1, calls - 40), calls + 1)))


def refuse(tally, judge, how, n):
    folder = judge.fresh()
    status, out, err = preloaded(judge.words(folder), "failmalloc.so", **{how: n})
    what, wrong = judge.judge(status, out, err)
    said = re.search(rb'^(fault |\{"fault":")(\w+)', err, re.M)
    name = said[2].decode() if said else None
    # With all refused from a commit on the database can't tell whether it is still open (docs/FORMATS.md).
    if not wrong and status == 3 and name != "NoMemory" and not (how == "FAIL_FROM" and name == "Store"):
        wrong = f"another answer than out of memory: {err!r}"
    if not wrong and status == 3 and judge.command.kind in ("steps", "init", "question", "migrate"):
        wrong = again(judge, folder)
    tally.tell(f"memory {judge.command.name} {'from' if how == 'FAIL_FROM' else 'at'} {n}", what, wrong)


def again(judge, folder):
    """What is wrong with the same words behind a run that was refused memory."""
    before = record(folder)
    status, out, err = program(*judge.words(folder))
    out = out.replace(str(folder).encode(), b"@")
    if judge.command.kind in ("question", "migrate"):
        return None if (status, out) == (judge.status, judge.answer) and record(folder) == before else f"again: {status} {out!r} {err!r}"
    if judge.command.kind == "init":
        return None if status == 0 or out.startswith((b"refused Exists", b'{"name"', b'{"refused"')) else f"again: {status} {out!r} {err!r}"
    return None if status in (0, 1) else f"again: {status} {out!r} {err!r}"


def script(tally, text, whole, how, n):
    status, out, err = preloaded(["sim"], "failmalloc.so", stdin=text, **{how: n})
    wrong = None
    same = (status, out, err) == whole
    if not same:
        lines = out.endswith(b"\n") or not out
        if status != 3 or err.split(b"\n")[0] not in (b"fault NoMemory", b"") or not whole[1].startswith(out) or not lines:
            wrong = f"{status} {err!r}, {len(out)} bytes{'' if whole[1].startswith(out) else ' that are another answer'}{'' if lines else ', a line cut'}"
    tally.tell(f"memory sim {'from' if how == 'FAIL_FROM' else 'at'} {n}", "as with ample memory" if same else f"status {status} {err.decode().split(chr(10))[0]}", wrong)


def run(tally, setting, judges, work, most):
    text = (CHAIN / "recall.script").read_bytes()
    whole = program("sim", stdin=text)
    calls = allocations(["sim"], work, stdin=text)
    if not calls:
        print("memory is left out: this program asks another library for it (one that `rt try` built has its own)")
        return
    cases = [("script", None, how, n) for how in ("FAIL_AT", "FAIL_FROM") for n in places(calls, most if how == "FAIL_AT" else most // 4)]
    for judge in judges:
        calls = allocations(judge.words(judge.fresh()), work)
        cases += [("command", judge, how, n) for how in ("FAIL_AT", "FAIL_FROM") for n in places(calls + 1, most if how == "FAIL_AT" else most // 4)]
    for kind, judge, how, n in setting.some(cases):
        if kind == "script":
            script(tally, text, whole, how, n)
        else:
            refuse(tally, judge, how, n)


def shortened(tally, setting, judges, most):
    """A write that was short is gone on with. A page is read by one call, and where that is short the database answers a
    failure of the device; other reads are gone on with."""
    cases = [(judge, only, settings) for judge in judges for settings in [{"SHORT_MOST": n} for n in (1, 2, 7, 511)] + [{"SHORT_AT": k} for k in range(1, most)] for only in "wr"]
    for judge, only, settings in setting.some(cases):
        status, out, err = preloaded(judge.words(judge.fresh()), "shortio.so", SHORT_ONLY=only, SHORT_STREAMS=1, **settings)
        what, wrong = judge.judge(status, out, err)
        if not wrong and status not in ANSWERS and only == "w":
            wrong = "a short write isn't gone on with"
        tally.tell(f"short {judge.command.name} {'writes' if only == 'w' else 'reads'} {settings}", what, wrong)
