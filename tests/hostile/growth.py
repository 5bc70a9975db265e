"""Refuses each growth of the tests of the crates that are made for it, one after another: a document, steps in place, a site in
a file, a script, turns. What is promised: the answer with ample memory, or NoMemory, and then, of the call made again, the
answer with ample memory. So such a test passes, or ends for want of memory while it makes what its calls are given.

The gate proves and runs these tests with ample memory, and leaves them built beside their crates; so does `rt test` in the
crate's folder. What isn't built is left out.
"""
import os
import subprocess

from chains import HERE
import memory

# For each crate of tests the tests whose growth is refused.
TESTS = {
    "site_tests": [
        "steps::refused::a_document_is_read_where_growth_is_refused",
        "steps::refused::steps_are_taken_where_growth_is_refused",
        "turns::refused::a_recall_ends_where_growth_is_refused",
    ],
    "command_tests": ["scripts::refused::a_script_ends_at_the_line_at_which_growth_is_refused"],
    "site_stops_tests": ["refused::a_site_in_files_goes_on_where_growth_is_refused"],
}
# How a test ends that has no memory for what its calls are given.
LACKS = {b"error: NoMemory", b"error: AllocError"}


def ran(program, test, work, **settings):
    env = {**os.environ, "LD_PRELOAD": str(memory.SHIMS / "failmalloc.so"), **{k: str(v) for k, v in settings.items()}}
    return subprocess.run([program, test], cwd=work, env=env, capture_output=True)


def judged(it):
    """What a run of a test came to, and what is wrong with it."""
    said = set(it.stdout.splitlines() + it.stderr.splitlines())
    if it.returncode == 0:
        return "the calls ended as with ample memory", None
    if it.returncode > 0 and said & LACKS:
        return "no memory for what the calls are given", None
    return f"status {it.returncode}", (it.stdout + it.stderr).decode()[-400:] or "it says nothing"


def cases(tally, work):
    """Each growth of each test that is built."""
    for crate, tests in TESTS.items():
        program = HERE.parent.parent / "crates" / crate / "out" / f"{crate}_tests"
        if not program.exists():
            print(f"growth of {crate} is left out: its tests aren't built, as the gate or `rt test` builds them")
            continue
        listed = subprocess.run([program, "--list"], capture_output=True, text=True).stdout
        for test in tests:
            name, count = test.rsplit("::", 1)[1], work / "count"
            if f"{test}: test" not in listed.splitlines():
                tally.tell(f"growth {name}", "not among the tests that are built", f"{crate} has no {test}")
                continue
            count.unlink(missing_ok=True)
            status = ran(program, test, work, FAIL_COUNT=count).returncode
            calls = int.from_bytes(count.read_bytes(), "little") if count.exists() else 0
            tally.tell(f"growth {name} with ample memory", f"status {status}, {calls} allocations", None if status == 0 and calls else "it fails, or no allocation is counted")
            yield from ((program, test, name, n) for n in range(1, calls + 1))


def run(tally, setting, work):
    for program, test, name, n in setting.some(cases(tally, work)):
        what, wrong = judged(ran(program, test, work, FAIL_AT=n))
        tally.tell(f"growth {name} at {n}", what, wrong)
