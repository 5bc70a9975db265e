"""Runs each command short of memory, descriptors, room and streams, stops runs by signals, and puts other things in the place of a
file that a command reads or makes."""
import os
import resource
import shutil
import signal
import socket
import subprocess
import time

from chains import ANSWERS, CHAIN, RECALL, SECONDS, copy, program


def limited(words, which, limit, ignore=()):
    def set_limit():
        for it in ignore:
            signal.signal(it, signal.SIG_IGN)
        resource.setrlimit(which, (limit, limit))

    try:
        ran = subprocess.run([RECALL, *map(str, words)], stdin=subprocess.DEVNULL, capture_output=True, timeout=SECONDS, preexec_fn=set_limit)
    except subprocess.TimeoutExpired as late:
        return "hangs", late.stdout or b"", late.stderr or b""
    return ran.returncode, ran.stdout, ran.stderr


def memory(tally, judge, limit):
    """So much address space. Below what the loader needs the program isn't started."""
    status, out, err = limited(judge.words(judge.fresh()), resource.RLIMIT_AS, limit)
    case = f"memory {judge.command.name} of {limit >> 10} kB"
    if status in (-9, -11, 127) and not out and (not err or b"shared libraries" in err or b"cannot allocate" in err):
        tally.tell(case, f"not started ({status})")
    else:
        tally.tell(case, *judge.judge(status, out, err))


def filesize(tally, judge, limit):
    tally.tell(f"filesize {judge.command.name} of {limit}, signal ignored", *judge.judge(*limited(judge.words(judge.fresh()), resource.RLIMIT_FSIZE, limit, [signal.SIGXFSZ])))


def filesize_killed(tally, judge, limit):
    status, out, err = limited(judge.words(judge.fresh()), resource.RLIMIT_FSIZE, limit)
    case = f"filesize {judge.command.name} of {limit}"
    if status == -signal.SIGXFSZ:
        kept, wrong = judge.after(0 if judge.is_run() else out.count(b"\n"))
        tally.tell(case, f"killed by the signal, record {kept}", wrong)
    else:
        tally.tell(case, *judge.judge(status, out, err))


def descriptors(tally, judge, limit):
    tally.tell(f"descriptors {judge.command.name} of {limit}", *judge.judge(*limited(judge.words(judge.fresh()), resource.RLIMIT_NOFILE, limit)))


def closed(tally, judge, streams):
    shell = " ".join({"0": "<&-", "1": ">&-", "2": "2>&-"}[it] for it in streams)
    ran = subprocess.run(["bash", "-c", f'exec "$0" "$@" {shell}', RECALL, *map(str, judge.words(judge.fresh()))], stdin=subprocess.DEVNULL, capture_output=True, timeout=SECONDS)
    kept, wrong = judge.after(0 if judge.is_run() else len(judge.states) if "1" in streams else ran.stdout.count(b"\n"))
    if "1" in streams and wrong and "lines were answered" in wrong:
        wrong = None
    if not wrong and ran.returncode not in (*ANSWERS, 3):
        wrong = f"status {ran.returncode}"
    if not wrong and ran.returncode in ANSWERS and "1" in streams and judge.answer:
        wrong = f"an answer that nobody can have read ends with {ran.returncode}"
    tally.tell(f"streams {judge.command.name} closed {streams}", f"status {ran.returncode} record {kept}", wrong)


def unread(tally, judge, handled):
    read, write = os.pipe()
    os.close(read)
    ran = subprocess.run([RECALL, *map(str, judge.words(judge.fresh()))], stdin=subprocess.DEVNULL, stdout=write, stderr=subprocess.PIPE, timeout=SECONDS, preexec_fn=lambda: signal.signal(signal.SIGPIPE, signal.SIG_IGN if handled else signal.SIG_DFL))
    os.close(write)
    kept, wrong = judge.after(0)
    if not wrong and judge.answer and ran.returncode not in (3, -signal.SIGPIPE):
        wrong = f"status {ran.returncode}"
    tally.tell(f"streams {judge.command.name} to a pipe that nobody reads, signal {'ignored' if handled else 'as it is'}", f"status {ran.returncode} record {kept}", wrong)


def signalled(tally, judge, sent, n):
    begun = time.monotonic()
    program(*judge.words(judge.fresh()))
    spent = time.monotonic() - begun
    run_ = subprocess.Popen([RECALL, *map(str, judge.words(judge.fresh()))], stdin=subprocess.DEVNULL, stdout=subprocess.PIPE, stderr=subprocess.PIPE, preexec_fn=lambda: resource.setrlimit(resource.RLIMIT_CORE, (0, 0)))
    time.sleep(spent * n / 6)
    run_.send_signal(sent)
    case = f"signals {judge.command.name} {sent.name} {n}"
    try:
        out, err = run_.communicate(timeout=SECONDS)
    except subprocess.TimeoutExpired:
        run_.kill()
        run_.communicate()
        tally.tell(case, "hangs", "it goes on for ever")
        return
    if run_.returncode == -sent:
        kept, wrong = judge.after(0 if judge.is_run() else out.count(b"\n"))
        tally.tell(case, f"ended by it, record {kept}", wrong)
    else:
        tally.tell(case, *judge.judge(run_.returncode, out, err))


def readonly(tally, judge, what):
    """A folder, or files, that can't be written, as another user."""
    folder = judge.fresh()
    os.chmod(folder.parent, 0o755)
    for it in [folder, *folder.iterdir()]:
        os.chown(it, 65534, 65534)
    for it in folder.iterdir():
        if what in ("files", "both") or what == "logs" and it.name.endswith("-wal"):
            it.chmod(0o444)
    if what in ("folder", "both"):
        folder.chmod(0o555)

    def other():
        os.setgid(65534)
        os.setuid(65534)

    try:
        ran = subprocess.run([RECALL, *map(str, judge.words(folder))], stdin=subprocess.DEVNULL, capture_output=True, timeout=SECONDS, preexec_fn=other)
    except PermissionError:
        return      # the program itself isn't for that user
    finally:
        folder.chmod(0o755)
        for it in [folder, *folder.iterdir()]:
            os.chown(it, 0, 0)
            it.chmod(0o755 if it == folder else 0o644)
    name, wrong = judge.judge(ran.returncode, ran.stdout, ran.stderr)
    tally.tell(f"readonly {judge.command.name} {what}", name, wrong)


def run(tally, setting, judges):
    cases = []
    for judge in judges:
        cases += [(memory, judge, n << 10) for n in range(2_000, 16_000, 197)]
        cases += [(filesize, judge, n) for n in (*range(0, 8192, 1024), *range(8192, 120_000, 4096))]
        cases += [(filesize_killed, judge, n) for n in (0, 512, 4096, 8192, 20_000, 40_000, 60_000)]
        cases += [(descriptors, judge, n) for n in range(4, 24)]
        cases += [(closed, judge, it) for it in ("0", "1", "2", "01", "02", "12", "012")]
        cases += [(unread, judge, it) for it in (False, True)]
        cases += [(signalled, judge, it, n) for it in (signal.SIGINT, signal.SIGTERM, signal.SIGHUP, signal.SIGQUIT, signal.SIGALRM, signal.SIGUSR1) for n in range(6)]
        if os.geteuid() == 0:
            cases += [(readonly, judge, it) for it in ("folder", "files", "both", "logs")]
    for case, *of in setting.some(cases):
        case(tally, *of)


# Other things in the place of a file.


def of_socket(path):
    s = socket.socket(socket.AF_UNIX)
    here = os.getcwd()
    os.chdir(path.parent)
    s.bind(path.name)
    os.chdir(here)
    s.close()


THINGS = {
    "a folder": lambda p: p.mkdir(), "a link to itself": lambda p: p.symlink_to(p.name), "a link to nothing": lambda p: p.symlink_to("nobody"),
    "a link to a file": lambda p: p.symlink_to("../victim"), "a hard link to a file": lambda p: p.hardlink_to(p.parent.parent / "victim"),
    "a link to /dev/null": lambda p: p.symlink_to("/dev/null"), "a link to /dev/full": lambda p: p.symlink_to("/dev/full"), "a link to /dev/zero": lambda p: p.symlink_to("/dev/zero"),
    "a pipe": lambda p: os.mkfifo(p), "a socket": of_socket, "empty": lambda p: p.write_bytes(b""), "one byte": lambda p: p.write_bytes(b"S"),
    "a text that begins as a database": lambda p: p.write_bytes(b"SQLite format 3\0" + b"x" * 5000), "longer than 1 MiB": lambda p: p.write_bytes(b"#" * (1 << 20) + b"\n"), "nothing": lambda p: None,
}


def places(tally, setting, made, work):
    """No command hangs, ends by a signal, or writes to what a link in the folder leads to."""
    cases = [(begin, words, place, thing)
             for begin, words, names in (
                 (made.empty, ["init", "@", CHAIN / "sites"], ["dairy.db", "dairy.db-wal", "dairy.db-journal", "sites", "sites.new"]),
                 (made.whole, ["audit", "@"], ["plant.db", "plant.db-wal", "plant.db-journal", "sites"]),
                 (made.whole, ["capture", "@", "plant", made.files / "lines", "--lines"], ["plant.db", "plant.db-wal", "sites"]),
                 (made.whole, ["lint", "@/sites", made.files / "each"], ["sites"]))
             for place in names for thing in THINGS]
    cases += [("document", None, None, it) for it in ("a pipe", "an endless device", "1 GiB and a byte", "a line of 1 GiB and a byte", "a list from a pipe")]
    for begin, words, place, thing in setting.some(cases):
        if begin == "document":
            if setting.whole or thing in ("a pipe", "1 GiB and a byte", "a list from a pipe"):
                documents(tally, made, work, thing)
        else:
            one_place(tally, copy(begin, work / "at"), words, place, thing)


def guarded(words, seconds=20, memory=4_000_000):
    """The program with at most so many kB of address space, and so much time."""
    return subprocess.run(["bash", "-c", f'ulimit -v {memory} 2>/dev/null; exec timeout -s KILL {seconds} "$0" "$@"', RECALL, *map(str, words)], stdin=subprocess.DEVNULL, capture_output=True)


def one_place(tally, folder, words, place, thing):
    victim = folder.parent / "victim"
    victim.unlink(missing_ok=True)
    victim.write_bytes(b"precious")
    path = folder / place
    path.unlink(missing_ok=True)
    THINGS[thing](path)
    was_link = path.is_symlink()
    words = [str(it).replace("@", str(folder), 1) for it in words]
    ran = guarded(words)
    told = ran.stderr.decode(errors="replace").replace(str(folder), "@").split("\n")[:2]
    wrong = None
    if ran.returncode in (124, 137, -9):
        wrong = "it hangs"
    elif ran.returncode not in (0, 1, 3, 4):
        wrong = f"status {ran.returncode} {told}"
    elif victim.read_bytes() != b"precious":
        wrong = "what the link leads to was written"
    elif words[0] == "init" and ran.returncode == 0 and ((folder / "sites").is_symlink() or (folder / "sites").read_bytes() != (CHAIN / "sites").read_bytes()):
        wrong = "the list is a link, or another one"
    elif words[0] == "init" and place == "sites.new" and ran.returncode == 3 and told[1:] != ["file @/sites.new: not a regular file"]:
        wrong = f"told {told}"
    elif place == "sites" and words[0] != "init" and thing in ("a pipe", "a socket", "a folder", "a link to /dev/zero", "a link to /dev/full", "a link to /dev/null") and told != ["fault Read", "file @/sites: not a regular file"]:
        wrong = f"told {told}"
    elif place == "sites" and words[0] != "init" and thing == "longer than 1 MiB" and told != ["fault Read", "file @/sites: longer than 1 MiB"]:
        wrong = f"told {told}"
    tally.tell(f"place {words[0]} {place} is {thing}{' (a link)' if was_link else ''}", f"status {ran.returncode} {ran.stdout.decode(errors='replace').split(chr(10))[0][:40]!r} {told}", wrong)
    shutil.rmtree(folder)


def documents(tally, made, work, thing):
    folder = copy(made.whole, work / "at")
    path = work / "document"
    path.unlink(missing_ok=True)
    words = ["capture", folder, "plant", path]
    wanted = (3, b"", f"fault Read\nfile {path}: longer than 64 MiB\n".encode())
    if thing == "a pipe":
        os.mkfifo(path)
        wanted = (0, b"captured 1 known 0 skipped 0\n", b"")
        holder = subprocess.Popen(["bash", "-c", f'cat "{made.files}/line1" >"{path}"'])
        ran = guarded(words)
        holder.kill()
        holder.wait()
    else:
        if thing == "an endless device":
            path.symlink_to("/dev/zero")
        elif thing == "a list from a pipe":
            os.mkfifo(path)
            words = ["lint", path, made.files / "each"]
            wanted = (3, b"", f"fault Read\nfile {path}: not a regular file\n".encode())
        else:
            with open(path, "wb") as file:
                file.truncate((1 << 30) + 1)
            if thing == "a line of 1 GiB and a byte":
                words.append("--lines")
        ran = guarded(words, 120)
    right = (ran.returncode, ran.stdout) == wanted[:2] and ran.stderr.startswith(wanted[2])
    tally.tell(f"place of a document: {thing}", f"status {ran.returncode} {ran.stderr.decode(errors='replace').split(chr(10))[0]}", None if right else f"{ran.returncode} {ran.stdout!r} {ran.stderr[:200]!r}")
    path.unlink(missing_ok=True)
    shutil.rmtree(folder)
