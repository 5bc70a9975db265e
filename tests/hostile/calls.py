"""Fails, or kills the program at, the K-th system call of each kind, for each K, in each command."""
import re
import subprocess
import sys
import tempfile

from chains import ANSWERS, RECALL, SECONDS

# What a call may answer, by its kind; any other is failed with EIO.
ERRORS = {
    "openat": ["EIO", "ENOENT", "EACCES", "EMFILE", "EINTR", "ENOMEM"],
    "open": ["EIO", "ENOENT", "EACCES", "EMFILE", "EINTR", "ENOMEM"],
    "read": ["EIO", "EINTR", "ENOMEM"],
    "pread64": ["EIO", "EINTR", "ENOMEM"],
    "write": ["EIO", "ENOSPC", "EPIPE", "EINTR", "EAGAIN"],
    "pwrite64": ["EIO", "ENOSPC", "EDQUOT", "EINTR"],
    "fsync": ["EIO", "ENOSPC", "EDQUOT", "EINTR", "EINVAL"],
    "fdatasync": ["EIO", "ENOSPC", "EDQUOT", "EINTR"],
    "ftruncate": ["EIO", "ENOSPC", "EINTR"],
    "rename": ["EIO", "ENOSPC", "EACCES"],
    "link": ["EIO", "ENOSPC", "EACCES", "EPERM"],
    "linkat": ["EIO", "ENOSPC", "EACCES", "EPERM"],
    "unlink": ["EIO", "EACCES"],
    "mmap": ["ENOMEM"],
    # The kernel tells a refused brk by the old break, and no error, so an error would be taken as a break.
    "brk": [],
    "mremap": ["ENOMEM"],
    "munmap": ["ENOMEM"],
    "clone": ["EAGAIN", "ENOMEM"],
    "clone3": ["EAGAIN", "ENOMEM"],
    "fcntl": ["EAGAIN", "EIO", "EINTR", "ENOLCK", "EINVAL"],
    "flock": ["EAGAIN", "EIO", "ENOLCK"],
    "getrandom": ["EIO", "EINTR", "ENOSYS"],
}
CHANGING = {"write", "pwrite64", "fsync", "fdatasync", "ftruncate", "rename", "link", "linkat", "unlink", "clone3", "openat"}
LEFT_OUT = {"execve", "exit_group", "exit", "arch_prctl", "set_tid_address", "set_robust_list", "rseq", "rt_sigreturn", "restart_syscall", "prctl", "sigaltstack"}
CALL = re.compile(r"^(?:(\d+) )?\s*(\w+)\(", re.M)


def traced(words, *flags):
    with tempfile.NamedTemporaryFile("r", errors="replace") as log:
        try:
            ran = subprocess.run(["strace", "-f", "-qq", "-o", log.name, *flags, RECALL, *map(str, words)], stdin=subprocess.DEVNULL, capture_output=True, timeout=SECONDS)
            answer = ran.returncode, ran.stdout, ran.stderr
        except subprocess.TimeoutExpired as late:
            answer = "hangs", late.stdout or b"", late.stderr or b""
        return *answer, log.read()


def counts(judge):
    """How often each kind of call is made by the thread that makes it most often."""
    status, out, err, log = traced(judge.words(judge.fresh()))
    if status not in ANSWERS:
        sys.exit(f"under strace: {status} {out!r} {err!r}")
    by = {}
    for thread, call in CALL.findall(log):
        by.setdefault(call, {}).setdefault(thread, 0)
        by[call][thread] += 1
    return {call: max(of.values()) for call, of in by.items() if call not in LEFT_OUT}


def cases_of(judge, changing):
    """Each call of the command with each way in which it is stopped or failed."""
    for call, most in sorted(counts(judge).items()):
        if changing and call not in CHANGING:
            continue
        for k in range(1, most + 1):
            for how in ["KILL", *ERRORS.get(call, ["EIO"])]:
                yield judge, call, k, how


def run(tally, setting, judges, whole):
    """Of the commands that `whole` names each call; of the others those that change a file alone."""
    cases = []
    for judge in judges:
        if setting.clock.is_over():
            break
        cases += cases_of(judge, judge.command.name not in whole)
    for judge, call, k, how in setting.some(cases):
        at = f"signal=KILL:when={k}" if how == "KILL" else f"error={how}:when={k}"
        status, out, err, log = traced(judge.words(judge.fresh()), "-e", f"trace={call}", "-e", f"inject={call}:{at}")
        case = f"call {judge.command.name} {call} {k} {how}"
        if how == "KILL":
            if status not in (137, -9):
                tally.tell(case, *judge.judge(status, out, err))
                continue
            kept, wrong = judge.after(0 if judge.is_run() else out.count(b"\n"))
            if not wrong and not judge.is_run() and not judge.answer.startswith(out.replace(str(judge.folder).encode(), b"@")):
                wrong = f"answered {out!r}"
            tally.tell(case, f"killed, record {kept}", wrong)
        elif "(INJECTED)" not in log:
            tally.tell(case, "not reached")
        elif (call, k) == ("mmap", 1) or b"error while loading shared libraries" in err:
            tally.tell(case, "not started")
        else:
            tally.tell(case, *judge.judge(status, out, err))
