"""Cuts the power at each call that changes a file, in each command, and opens what the disk may then hold.

The calls of a run are recorded by strace, with all bytes. For the moment before each call, and after the last, the folder is
made as a disk may hold it:
- of a file, what was synced stands; of the writes and cuts since, all, none, all but one, or any of them may be there; a write may
  also be a beginning of itself, any bytes in its range, or zeros, and the length anywhere between the synced one and the greatest
  since ("torn");
- of the folder, what was made, linked, renamed or removed since it was synced last may be there or not.
Then each site has to be in a state that the command's answered lines allow, by SQLite's own reading and by `audit`.

That this can fail at all is shown by the control: the same, with the syncs of a file taken out of the record, has to find a third
state, or a step that was answered and isn't kept.
"""
import os
import pathlib
import re
import shutil
import subprocess
import sys
import tempfile

from chains import ANSWERS, RECALL

LINE = re.compile(r"^(?:\d+ +)?(\w+)\((.*)\) += (-?\d+|0x[0-9a-f]+)(?:<[^ ]*>)?(?: .*)?$")
FD = re.compile(r"^(\d+)<((?:[^>\\]|\\.)*)>")
STRING = re.compile(r'"((?:\\x[0-9a-f]{2})*)"')
KINDS = "openat,open,write,pwrite64,writev,pwritev,ftruncate,truncate,fsync,fdatasync,sync_file_range,unlink,unlinkat,rename,renameat,renameat2,fallocate,mkdir,creat,link,linkat,symlink"


def bytes_of(text):
    return bytes.fromhex(text.replace("\\x", ""))


def path_of(text):
    return bytes_of(text).decode() if text.startswith("\\x") else text


def joined(log):
    """The calls of a trace, those that were interrupted put together."""
    waits = {}
    for line in log.splitlines():
        thread, _, rest = line.partition(" ")
        rest = rest.lstrip()
        if rest.endswith("<unfinished ...>"):
            waits[thread] = rest[: -len("<unfinished ...>")].rstrip()
        elif "resumed>" in rest and thread in waits:
            yield waits.pop(thread) + rest.split("resumed>", 1)[1]
        else:
            yield rest


def calls_of(words, folder):
    """The calls of a run that change a file of the folder or print, in order."""
    found, made = [], {it.name for it in folder.iterdir()}
    with tempfile.NamedTemporaryFile("r", errors="replace") as log:
        ran = subprocess.run(["strace", "-f", "-qq", "-y", "-xx", "-s", "100000000", "-o", log.name, "-e", f"trace={KINDS}", RECALL, *map(str, words)], stdin=subprocess.DEVNULL, capture_output=True)
        if ran.returncode not in ANSWERS:
            sys.exit(f"under strace: {ran}")
        text = log.read()

    def name_of(quoted):
        path = os.path.abspath(bytes_of(quoted).decode())
        return os.path.relpath(path, folder) if path.startswith(f"{folder}/") else None

    for line in joined(text):
        said = LINE.match(line)
        if not said or said[3].startswith("-"):
            continue
        call, args = said[1], said[2]
        strings = STRING.findall(args)
        if call in ("openat", "open", "creat"):
            name = name_of(strings[0])
            if name is None:
                continue
            if ("O_CREAT" in args or call == "creat") and name not in made:
                made.add(name)
                found.append(("make", name))
            if "O_TRUNC" in args:
                found.append(("cut", name, 0))
        elif call in ("rename", "renameat", "renameat2", "link", "linkat"):
            # the descriptors of the folders, where there are any, have no name in quotes
            old, new = (name_of(it) for it in strings[:2])
            if old is None or new is None:
                continue
            made.add(new)
            if call.startswith("rename"):
                made.discard(old)
            found.append(("rename" if call.startswith("rename") else "link", old, new))
        elif call in ("unlink", "unlinkat"):
            name = name_of(strings[0])
            if name:
                made.discard(name)
                found.append(("remove", name))
        else:
            one = change_of(call, args, strings, said, folder, line)
            if one:
                found.append(one)
    return found


def change_of(call, args, strings, said, folder, line):
    fd = FD.match(args)
    if not fd:
        sys.exit(f"not understood: {line[:200]}")
    number, path = int(fd[1]), path_of(fd[2])
    if call == "write" and number == 1:
        return "print", bytes_of(strings[0])
    if call in ("fsync", "fdatasync") and path == str(folder):
        return ("settle",)
    if not path.startswith(f"{folder}/"):
        return None
    name = os.path.relpath(path, folder)
    if call == "pwrite64":
        return "write", name, int(args.rsplit(",", 1)[1]), bytes_of(strings[0])[: int(said[3])]
    if call == "write":
        return "append", name, bytes_of(strings[0])
    if call == "ftruncate":
        return "cut", name, int(args.rsplit(",", 1)[1])
    if call in ("fsync", "fdatasync"):
        return "sync", name
    sys.exit(f"not understood: {line[:200]}")


def written(held, offset, data):
    if offset > len(held):
        held = held + b"\0" * (offset - len(held))
    return held[:offset] + data + held[offset + len(data) :]


class File:
    def __init__(self, held):
        self.now = self.synced = held
        self.since = []

    def write(self, offset, data):
        self.now = written(self.now, offset, data)
        self.since.append((offset, data))

    def cut(self, length):
        self.now = self.now[:length].ljust(length, b"\0")
        self.since.append((length, None))

    def sync(self):
        self.synced, self.since = self.now, []

    def left(self, how, chance):
        if how == "none":
            return self.synced
        if how == "all":
            return self.now
        held = self.synced
        lost = chance.randrange(len(self.since)) if self.since else None
        for place, (at, data) in enumerate(self.since):
            fates = {"torn": ["kept", "lost", "begun", "any", "zeros"], "some": ["kept", "lost"], "one": ["lost" if place == lost else "kept"]}[how]
            fate = chance.choice(fates)
            if fate == "lost":
                continue
            if data is None:
                held = held[:at].ljust(at, b"\0")
                continue
            if fate == "begun":
                data = data[: chance.randrange(len(data) + 1)]
            elif fate == "any":
                a, b = sorted(chance.randrange(len(data) + 1) for _ in range(2))
                data = data[:a] + chance.randbytes(b - a) + data[b:]
            elif fate == "zeros":
                data = b"\0" * len(data)
            held = written(held, at, data)
        if how == "torn" and len(held) > len(self.synced) and chance.random() < 0.3:
            held = held[: chance.randrange(len(self.synced), len(held) + 1)]
        return held


class Disk:
    """A folder's names, those of the last sync of it, and what was done to them since."""

    def __init__(self, folder):
        self.now = {it.name: File(it.read_bytes()) for it in folder.iterdir()}
        self.synced = dict(self.now)
        self.since = []

    def do(self, call):
        kind = call[0]
        if kind == "make":
            self.since.append((kind, call[1], File(b"")))
            self.now[call[1]] = self.since[-1][2]
        elif kind in ("rename", "link"):
            it = self.now[call[1]]
            if kind == "rename":
                del self.now[call[1]]
            self.now[call[2]] = it
            self.since.append((kind, call[1], call[2], it))
        elif kind == "remove":
            self.now.pop(call[1], None)
            self.since.append((kind, call[1]))
        elif kind == "settle":
            self.synced, self.since = dict(self.now), []
        elif kind == "sync":
            self.now[call[1]].sync()
        elif kind == "cut":
            self.now[call[1]].cut(call[2])
        elif kind == "append":
            self.now[call[1]].write(len(self.now[call[1]].now), call[2])
        elif kind == "write":
            self.now[call[1]].write(call[2], call[3])

    def left(self, how, chance):
        names = dict(self.synced)
        for done in self.since:
            if how == "none" or how not in ("all", "one") and chance.random() < 0.5:
                continue
            if done[0] == "make":
                names[done[1]] = done[2]
            elif done[0] == "rename":
                names.pop(done[1], None)
                names[done[2]] = done[3]
            elif done[0] == "link":
                names[done[2]] = done[3]
            else:
                names.pop(done[1], None)
        return {name: it.left(how, chance) for name, it in names.items()}


def moments(judge, setting, without=None):
    """The command's run, cut at each of its moments: for each its name, the disk, and how many lines were answered. The disk
    goes on, so a moment has to be looked at before the next one is asked for."""
    folder = judge.fresh()
    disk = Disk(folder)
    calls = calls_of(judge.words(folder), folder)
    told = b""
    for place in range(len(calls) + 1):
        at_end = place == len(calls)
        what = "the end" if at_end else " ".join(f"{len(it)} bytes" if isinstance(it, bytes) else str(it) for it in calls[place])
        yield f"call {place} ({what})", disk, told, at_end
        if at_end:
            return
        call = calls[place]
        if call[0] == "print":
            told += call[1]
        elif not (without and call[0] == "sync" and call[1] == without):
            disk.do(call)


def cut(judge, setting, disk, told, at_end, number):
    """What is found of one disk after the cut: its name, the record that is kept, and what is wrong with it."""
    how = ["none", "all", "one"][number] if number < 3 else setting.chance.choice(["some", "torn"])
    at = judge.folder
    shutil.rmtree(at, ignore_errors=True)
    at.mkdir()
    for file, held in disk.left(how, setting.chance).items():
        (at / file).write_bytes(held)
    kept, wrong = judge.after(0 if judge.is_run() else told.count(b"\n"), whole=at_end)
    return how, kept, wrong


def run(tally, setting, judges, variants=6):
    for judge in judges:
        if setting.clock.is_over():
            return
        every = 1 if setting.whole else setting.chance.choice((5, 7, 11))
        for place, (name, disk, told, at_end) in enumerate(moments(judge, setting)):
            if place % every and not at_end:
                continue
            if setting.clock.is_over():
                return
            for number in range(variants):
                how, kept, wrong = cut(judge, setting, disk, told, at_end, number)
                tally.tell(f"power {judge.command.name} before {name}, {how}", f"{'answered, ' if told else ''}record {kept}", wrong)


def control(tally, setting, judge):
    """The same without the syncs of a file: it has to be seen that one is missing."""
    for file in ("plant.db", "plant.db-wal"):
        tried = seen = 0
        for name, disk, told, at_end in moments(judge, setting, without=file):
            for number in range(12):
                if not seen:
                    tried += 1
                    seen += cut(judge, setting, disk, told, at_end, number)[2] is not None
        tally.tell(f"power, the control: {judge.command.name} without the syncs of {file}", "seen" if seen else "not seen", None if seen else f"none of {tried} states departs")
