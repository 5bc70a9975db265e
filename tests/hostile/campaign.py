"""The campaign, part by part: a line a case, the counts at the end, status 0 where nothing departs.

    RECALL=.. python3 campaign.py [--minute] [--seed N] [--only PART..] [--leave PART..] [--seconds N] [--thin N | --shard K/N] [--quiet]

--minute runs a minute of it: of each part a few cases, chosen by the seed. --seconds ends the whole after so long, --thin 4 makes
each fourth case of the long parts alone, and --shard 2/4 each fourth one from the second on, so that four programs make all of
them side by side. tests/hostile.sh makes ready what it needs, and says what is left out.
"""
import argparse
import os
import pathlib
import random
import shutil
import subprocess
import sys
import tempfile
import time

import chains
import memory

PARTS = ["covered", "documents", "long-line", "other-files", "rows", "streams", "places", "scripts", "folders", "init-races", "together", "limits", "damage", "calls", "power", "memory", "growth", "short", "soak", "worst"]
# Each needs so much of a minute, in seconds; those that aren't here have no part in it.
SHARES = {"covered": 3, "documents": 5, "long-line": 2, "other-files": 3, "rows": 4, "streams": 3, "places": 3, "scripts": 7, "folders": 5, "init-races": 2, "together": 3, "limits": 3, "damage": 3, "calls": 5, "power": 5, "memory": 4, "growth": 2, "short": 2}


class Clock:
    def __init__(self, seconds):
        self.ends = None if seconds is None else time.monotonic() + seconds

    def is_over(self):
        return self.ends is not None and time.monotonic() > self.ends


def shard(text):
    """Which of so many shares of the cases: 2/4 is the second of four."""
    which, count = map(int, text.split("/"))
    if not 1 <= which <= count:
        raise ValueError(text)
    return which, count


class Setting:
    """How much is run: all of it, or what fits, by a seed."""

    def __init__(self, asked, part, clock):
        self.seed, self.whole, self.thin, self.shard = asked.seed, not asked.minute, asked.thin, asked.shard
        self.chance = random.Random(f"{asked.seed} {part}")
        self.clock = clock

    def some(self, cases):
        """The cases that are run: each, each so many, or in a minute random ones, until the time is over."""
        cases = list(cases)
        if not self.whole:
            self.chance.shuffle(cases)
        elif self.thin > 1:
            cases = cases[self.chance.randrange(self.thin) :: self.thin]
        else:
            cases = cases[self.shard[0] - 1 :: self.shard[1]]
        for it in cases:
            if self.clock.is_over():
                return
            yield it


def has(tool):
    return shutil.which(tool) is not None


def shims(work):
    """The libraries that are loaded before the program, or None where no compiler is."""
    compiler = next((it for it in ("cc", "gcc", "clang") if has(it)), None)
    if compiler is None:
        return None
    for name in ("failmalloc", "shortio", "failio"):
        ran = subprocess.run([compiler, "-shared", "-fPIC", "-O2", "-o", work / f"{name}.so", chains.HERE / f"{name}.c", "-ldl"], capture_output=True, text=True)
        if ran.returncode:
            print(ran.stderr)
            return None
    return work


def run_part(part, tally, setting, work, made, tools):
    import calls, damage, folders, growth, inputs, limits, power, scripts, soak, together, worst

    choose = lambda *names: list(chains.chosen(made, work, names))
    if part == "covered":
        lacks = chains.uncovered(made)
        tally.tell("each command and each option of --help has a line in chains.py", f"{len(lacks)} without one", ", ".join(lacks) or None)
    elif part in ("documents", "long-line", "other-files"):
        getattr(inputs, part.replace("-", "_"))(tally, setting, work)
    elif part == "streams":
        inputs.readers(tally, setting, work, tools)
        inputs.writers(tally, setting, work, tools)
    elif part == "rows":
        folders.rows(tally, setting, work, made, 1200 // setting.thin if setting.whole else 10_000)
    elif part == "places":
        limits.places(tally, setting, made, work)
    elif part == "scripts":
        scripts.run(tally, setting, 2000 // setting.thin if setting.whole else 10_000)
    elif part == "folders":
        folders.run(tally, setting, work, 40 // min(setting.thin, 4) if setting.whole else 1000)
    elif part == "init-races":
        together.inits(tally, setting, work, 200 // setting.thin if setting.whole else 1000)
    elif part == "together":
        together.run(tally, setting, work, made, 200 // setting.thin if setting.whole else 1000)
    elif part == "limits":
        limits.run(tally, setting, choose(*(["capture-many", "start-from", "migrate", "run-two", "report-json", "init"] if setting.whole else ["capture-many", "run-two", "init"])))
    elif part == "damage":
        damage.run(tally, setting, work, made, 600 // setting.thin if setting.whole else 1000)
    elif part == "calls":
        whole = {"init", "capture-many", "start", "run-two", "report-json", "migrate"}
        calls.run(tally, setting, choose(*(sorted(whole) + ["capture-each", "start-from", "start-key", "audit-wait", "trace-back", "lint", "status", "items", "migrate-capture", "sim"] if setting.whole else setting.chance.sample(sorted(whole - {"run-two"}), 2))), whole if setting.whole else set())
    elif part == "power":
        names = ["init", "capture", "capture-many", "start", "start-from", "run-two", "migrate", "migrate-capture", "audit", "capture-each"]
        if setting.whole:
            power.control(tally, setting, *choose("capture"))
        power.run(tally, setting, choose(*(names if setting.whole else setting.chance.sample(["init", "capture", "capture-many", "start", "migrate"], 2))))
    elif part == "memory":
        left = ["run", "run-json", "migrate-run", "help", "help-option", "version", "sim"]
        names = [it.name for it in chains.commands(made) if it.name not in left]
        memory.run(tally, setting, choose(*(names if setting.whole else setting.chance.sample(names, 2))), work, 400 if setting.whole else 4000)
    elif part == "growth":
        growth.run(tally, setting, work)
    elif part == "short":
        memory.shortened(tally, setting, choose(*(["init", "capture-many", "start-from", "run-two", "report-json", "migrate"] if setting.whole else ["capture-many"])), 24)
    elif part == "soak":
        soak.run(tally, setting, work, 300)
    elif part == "worst":
        worst.run(tally, setting, work)


def needs(part, tools):
    """What keeps a part from being run, or None."""
    if part in ("calls", "power") and not has("strace"):
        return "strace isn't installed"
    if part in ("memory", "growth", "short", "streams") and tools is None:
        return "there is no C compiler"
    return None


def main():
    asked = argparse.ArgumentParser()
    asked.add_argument("--minute", action="store_true")
    asked.add_argument("--seed", default=None)
    asked.add_argument("--only", nargs="*", choices=PARTS)
    asked.add_argument("--leave", nargs="*", choices=PARTS, default=[])
    asked.add_argument("--seconds", type=float)
    asked.add_argument("--thin", type=int, default=1)
    asked.add_argument("--shard", type=shard, default=(1, 1))
    asked.add_argument("--quiet", action="store_true")
    asked = asked.parse_args()
    asked.seed = asked.seed or str(int(time.time()))
    print(f"seed {asked.seed}", flush=True)
    begun = time.monotonic()
    over = Clock(asked.seconds)
    counts, lacking = [], []
    with tempfile.TemporaryDirectory() as there:
        top = pathlib.Path(there).resolve()
        top.chmod(0o755)
        tools = shims(top)
        memory.SHIMS = tools
        base = top / "chains"
        base.mkdir()
        made = chains.Chains(base)
        for part in asked.only or PARTS:
            if part in asked.leave or over.is_over() or asked.minute and not asked.only and part not in SHARES:
                continue
            lack = needs(part, tools)
            if lack:
                lacking.append(f"{part} is left out: {lack}")
                continue
            work = top / part
            work.mkdir()
            clock = Clock(SHARES.get(part, 60)) if asked.minute else over
            tally = chains.Count(part, asked.quiet or asked.minute)
            start = time.monotonic()
            run_part(part, tally, Setting(asked, part, clock), work, made, tools)
            counts.append((tally, time.monotonic() - start))
            print(f"# {part}: {tally.cases} cases, {len(tally.odd)} depart, {time.monotonic() - start:.0f} s", flush=True)
            shutil.rmtree(work, ignore_errors=True)
    print()
    for tally, seconds in counts:
        print(f"{tally.name:12} {tally.cases:7} cases {len(tally.odd):4} depart {seconds:6.0f} s")
        if not asked.minute:
            for what, n in tally.kinds.most_common(12):
                print(f"  {n:7} {what[:110]}")
    for line in lacking:
        print(line)
    odd = [it for tally, _ in counts for it in tally.odd]
    for case, what, departs in odd[:60]:
        print(f"DEPARTS {case[:300]}: {what[:100]}: {departs[:600]}")
    print(f"seed {asked.seed}: {sum(tally.cases for tally, _ in counts)} cases, {len(odd)} depart, {time.monotonic() - begun:.0f} s")
    sys.exit(1 if odd else 0)


main()
