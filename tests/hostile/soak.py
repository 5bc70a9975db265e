"""Use for minutes or hours: a folder of 16 sites, captures, starts and runs in turn, one command in four killed, and the files
watched. Wrong is a misfit, an ended recall that isn't exact or changed, an answered capture that isn't there, a file left over. Behind
it three runs without faults end every recall."""
import os
import signal
import subprocess
import time

from chains import READ, RECALL, T, fits, rows


def command(words, kill=None, stdin=b""):
    p = subprocess.Popen([RECALL, *map(str, words)], stdin=subprocess.PIPE, stdout=subprocess.PIPE, stderr=subprocess.PIPE)
    try:
        p.stdin.write(stdin)
        p.stdin.close()
    except OSError:
        pass
    if kill is not None:
        time.sleep(kill)
        os.kill(p.pid, signal.SIGKILL)
    out, err = p.stdout.read(), p.stderr.read()
    _, status, used = os.wait4(p.pid, 0)
    p.returncode = 0
    return os.waitstatus_to_exitcode(status), out, err, used.ru_maxrss


class Soak:
    def __init__(self, chance, work, count):
        self.chance, self.count = chance, count
        self.folder = work / "soak"
        self.folder.mkdir()
        self.names = [f"s{n}" for n in range(count)]
        (work / "list").write_text("".join(f"site {n} a{n[1:]}\n" for n in self.names))
        assert command(["init", self.folder, work / "list"])[0] == 0
        self.number, self.kept, self.ended, self.killed, self.most = 0, {it: set() for it in self.names}, {}, 0, 0
        self.known = {it: [] for it in self.names}

    def maybe_kill(self, most):
        if self.chance.random() < 0.25:
            self.killed += 1
            return self.chance.random() * most
        return None

    def item(self, site):
        it = f"i{self.chance.randrange(max(1, self.number // 3 - 200), self.number // 3 + 2)}"
        self.known[site].append(it)
        return it

    def event(self, k):
        site, kind = self.names[k], self.chance.random()
        item = lambda: self.item(site)
        if kind < 0.5:
            to = "a%d" % ((k + self.chance.choice((1, 2, 5))) % self.count)
            return '"type":"ObjectEvent","action":"OBSERVE","epcList":["%s","%s"],"destinationList":[{"type":"location","destination":"%s"}]' % (item(), item(), to)
        if kind < 0.7:
            return '"type":"TransformationEvent","inputEPCList":["%s"],"outputEPCList":["%s"]' % (item(), item())
        if kind < 0.85:
            return '"type":"AggregationEvent","action":"ADD","parentID":"%s","childEPCs":["%s"]' % (item(), item())
        return '"type":"ObjectEvent","action":"OBSERVE","epcList":["%s"]' % item()

    def capture(self):
        k = self.chance.randrange(self.count)
        lines, ids = [], []
        for _ in range(self.chance.choice((1, 5, 20))):
            self.number += 1
            ids.append(f"e{self.number}")
            lines.append('{"eventID":"e%d",%s,%s}' % (self.number, T, self.event(k)))
        kill = self.maybe_kill(0.05)
        status, out, err, used = command(["capture", self.folder, self.names[k], "--lines", "-"], kill, "\n".join(lines).encode() + b"\n")
        self.most = max(self.most, used)
        for line in out.decode().split("\n"):
            w = line.split(" ")
            if w[0] == "captured" and w[-1].startswith("-:"):
                self.kept[self.names[k]].add(ids[int(w[-1][2:]) - 1])
        return f"capture {status} {out!r} {err!r}" if kill is None and status not in (0, 1) else None

    def round(self):
        wrong = None
        for _ in range(self.chance.randrange(1, 5)):
            wrong = self.capture() or wrong
        if self.chance.random() < 0.4:
            site = self.chance.choice(self.names)
            command(["start", self.folder, site, self.chance.choice(self.known[site][-50:] or ["nobody"])], self.maybe_kill(0.05))
        kill = self.maybe_kill(0.3)
        status, out, err, used = command(["run", self.folder, "--turns", str(self.chance.choice((1, 3, 10, 100, 2000)))], kill)
        self.most = max(self.most, used)
        for line in out.decode().split("\n"):
            if line.endswith(" ended"):
                self.ended.setdefault(line[:-6], None)
        extra = sorted(it.name for it in self.folder.iterdir() if it.name != "sites" and not it.name.endswith((".db", ".db-wal")))
        if extra:
            wrong = f"files left over: {extra}"
        return f"run {status} {out!r} {err!r}" if kill is None and status != 0 else wrong

    def look(self):
        """What is wrong with the folder as a whole."""
        READ.clear()
        wrong = fits(self.folder)
        for it in self.names:
            found = rows(self.folder, it)
            have = {e[1] for e in found["event"]} if isinstance(found, dict) else set()
            if not self.kept[it] <= have:
                wrong = f"answered, and not kept at {it}: {sorted(self.kept[it] - have)[:5]}"
        status, out, err, _ = command(["audit", self.folder])
        if status != 0:
            return f"audit {status} {out!r} {err!r}"
        for line in out.decode().split("\n"):
            w = line.split(" ")
            if w[0] == "equal":
                if self.ended.get(w[1]) not in (None, w[3]):
                    wrong = f"{w[1]} had {self.ended[w[1]]} pairs, and now {w[3]}"
                self.ended[w[1]] = w[3]
            elif w[0] == "open" and w[1] in self.ended:
                wrong = f"{w[1]} had ended and is open"
        return wrong


def run(tally, setting, work, seconds):
    soak = Soak(setting.chance, work, 16)
    ends = time.monotonic() + seconds / setting.thin
    n = 0
    while time.monotonic() < ends and not setting.clock.is_over():
        n += 1
        wrong = soak.round() or (soak.look() if n % 10 == 0 else None)
        tally.tell(f"round {n}", "a round", wrong)
    for _ in range(3):
        last = command(["run", soak.folder])
    wrong = soak.look()
    if b" open" in last[1]:
        wrong = f"three runs without faults leave a recall open: {last[1]!r}"
    print(f"  {soak.number} events made, {sum(map(len, soak.kept.values()))} told as kept, {len(soak.ended)} recalls ended, {soak.killed} commands killed, at most {soak.most >> 10} MB")
    tally.tell("three runs at the end", "all have ended", wrong)
