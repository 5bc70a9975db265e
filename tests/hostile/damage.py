"""Bits of a site's file are flipped, pages exchanged, files cut or made longer, a log of another site or another moment put beside a
file. Nothing is promised of the record then (the disk is taken as honest), but an answer and no end by a signal; and it is counted
how much of it nobody notices. In a file whose pages have sums, a bit that is flipped in a page that is read is told."""
import collections
import shutil

from chains import TANK, copy, program


def run(tally, setting, work, made, count):
    chance = setting.chance
    begin = made.ended
    whole = (begin / "plant.db").read_bytes()
    words = (["audit"], ["report", "plant#1"], ["status"], ["trace", "plant", TANK], ["items", "plant"])
    right = [program(w[0], begin, *w[1:])[:2] for w in words]
    silent = collections.Counter()
    for n in range(count):
        if setting.clock.is_over():
            break
        folder = copy(begin, work / "damage")
        how = chance.choice(["bit"] * 6 + ["byte", "page", "cut", "zeros", "longer", "swap", "log", "old"])
        (folder / "plant.db").write_bytes(spoilt(bytearray(whole), how, chance))
        if how == "log":
            shutil.copy(made.started / "dairy.db-wal", folder / "plant.db-wal")
        elif how == "old":
            for end in chance.choice([("",), ("-wal",), ("", "-wal")]):
                shutil.copy(made.captured / f"plant.db{end}", folder / f"plant.db{end}")
        got = [program(w[0], folder, *w[1:]) for w in words]
        wrong = next((f"{w[0]}: {g}" for w, g in zip(words, got) if g[0] == "hangs" or g[0] not in (0, 1, 3, 4) or g[0] == 3 and not g[2].startswith(b"fault ")), None)
        if any(g[0] in (3, 4) for g in got):
            what = "told"
        elif [g[:2] for g in got] == right:
            what = "the same answers"
        else:
            what = "other answers, told nowhere"
            # A file from before the recall has its record, consistent or not; a bit that is read and not told is what sums are for.
            if how in ("bit", "byte", "page", "zeros", "swap"):
                wrong = "other answers, told nowhere: " + ", ".join(w[0] for w, g, r in zip(words, got, right) if g[:2] != r)
        silent[how, what] += 1
        tally.tell(f"damage {n} {how}", what, wrong)
    if setting.whole:
        for (how, what), n in sorted(silent.items()):
            print(f"  {how:8} {n:5} {what}")


def spoilt(made, how, chance):
    if how == "bit":
        made[chance.randrange(len(made))] ^= 1 << chance.randrange(8)
    elif how == "byte":
        made[chance.randrange(len(made))] = chance.randrange(256)
    elif how == "page":
        at = chance.randrange(0, len(made), 4096)
        made[at : at + 4096] = chance.randbytes(4096)
    elif how == "cut":
        del made[chance.randrange(len(made)) :]
    elif how == "zeros":
        at = chance.randrange(0, len(made), 512)
        made[at : at + 512] = bytes(512)
    elif how == "longer":
        made += chance.randbytes(chance.randrange(1, 9000))
    elif how == "swap":
        a, b = (chance.randrange(0, len(made), 4096) for _ in range(2))
        made[a : a + 4096], made[b : b + 4096] = made[b : b + 4096], made[a : a + 4096]
    return bytes(made)
