#!/usr/bin/env python3
"""Whether the program order prints what tools/order.py does, of texts made from a seed and of those at the limits: of every two entries of
a small text and of some of a large one, in either order, and without numbers; and whether the scenes bear its verdicts out. Where a text
can be cut into blocks, two neighbours whose order is free and whose names differ are exchanged, and compare has to print nothing of both
texts. Two whose order is held are exchanged too: then the text has to be refused, or compare prints something, or both entries give one
name alike.

    tools/compare-order.py [COUNT [SEED [FOLDER]]]

COUNT is 5000 and FOLDER target/bin if not given. The texts have up to 8 statements: three in four have few names and, mostly, each
statement on lines of its own, the others are of any layout; half are read in the archive reading. Prints how often each outcome turned up,
how many exchanges of one name given alike change what list prints beside numbering, and how many answers differ: the exit status is 1 if
any does, or if an outcome turned up in none."""
import collections
import pathlib
import random
import subprocess
import sys
import tempfile

import order
import scene
import sort
import texts

TOP = pathlib.Path(__file__).resolve().parent.parent
MOST = 8
FREE, DIRECT, FURTHER = "pairs free", "pairs held by a direct bond", "pairs held over more bonds"
SAME, REFUSED, CHANGED, ALIKE = (
    "free neighbours exchanged: nothing changes",
    "held neighbours exchanged: refused",
    "held neighbours exchanged: compare shows it",
    "held neighbours exchanged: one name given twice alike",
)
NUMBERS, TEXT, AGAIN, ONCE = "numbers refused=17", "texts refused", "texts with names given more than once", "texts with none"
OUTCOMES = [FREE, DIRECT, FURTHER, NUMBERS, TEXT, AGAIN, ONCE, SAME, REFUSED, CHANGED, ALIKE]
RELISTED = "of these change what list prints beside numbering"


def chain(primitives):
    """An accepted text of so many lights, each under the one above it."""
    return b"".join(b"%s light l%d 0 0 3 1 1 1\n" % (b"l%d" % (n - 1) if n else b"void", n) for n in range(primitives))


def every_text(seed, count):
    for text in [*texts.limits().values(), texts.lamps(65536), chain(1024)]:
        yield False, text
    other = count // 4
    for archive, text, _, _ in texts.texts(seed, other, MOST):
        yield archive, text
    yield from texts.few_names(seed, count - other, MOST)


def pairs_of(rng, size):
    """Numbers to ask about: every two of a small text, some of a large one, in either order, and some that are no two entries."""
    numbers = range(1, size + 1) if size <= MOST else [1, rng.randrange(2, size - 1), size - 1, size]
    found = [(n, m) for n in numbers for m in numbers if n < m]
    some = rng.randrange(size + 1)
    return [rng.choice([(n, m), (m, n)]) for n, m in found] + [(some, some), (some, size + 1), (0, some), (some, 99999)]


class Programs:
    """The built programs, run on files of a folder."""

    def __init__(self, folder, scratch):
        self.folder, self.scratch, self.compared, self.differ = folder, scratch, 0, 0

    def run(self, program, archive, *arguments):
        call = [self.folder / program, *["--archive"] * archive, *arguments]
        return subprocess.run(call, capture_output=True, cwd=self.scratch)

    def output(self, *call):
        run = self.run(*call)
        run.check_returncode()
        return run.stdout.decode()

    def expect(self, right, text, *call):
        """Whether a program prints what it should, and nothing on standard error. What is wrong is said."""
        run = self.run(*call)
        self.compared += 1
        as_expected = run.returncode == 0 and run.stdout == right.encode() and not run.stderr
        if not as_expected:
            self.wrong("%s differs on %r: %r, not %r" % (" ".join(map(str, call)), text[:300], run.stdout[:300], right[:300]))
        return as_expected

    def wrong(self, what):
        self.differ += 1
        if self.differ <= 5:
            print(what)


def outcome(answer):
    if "refused=" in answer:
        return NUMBERS
    said = dict(field.split("=", 1) for field in answer.split())
    return FREE if said["order"] == "free" else DIRECT if said["by"] == said["second"] else FURTHER


def keyed(listing):
    """The lines of a listing with names for numbers, each with which entry of that name it is."""
    lines = [dict(field.split("=", 1) for field in line.split()) for line in listing.splitlines() if line.startswith("no=")]
    times, keys = collections.Counter(), {"0": None}
    for line in lines:
        times[line["name"]] += 1
        keys[line["no"]] = line["name"], times[line["name"]]
    return {keys[line["no"]]: (line["type"], *(keys[line[link]] for link in ("mod", "alias", "next"))) for line in lines}


def exchanges(programs, archive, text, held):
    """What becomes of a text when two neighbours are exchanged, for each two of which it is said whether their order is held."""
    try:
        blocks, rest = sort.blocks(text)
    except scene.Refused:
        return
    records, _ = scene.read(archive, text)
    names, given = [text[r[3] : r[3] + r[4]] for r in records], [r[0] > scene.LAST_SURFACE for r in records]
    for n, is_held in held.items():
        one_name = names[n - 1] == names[n]
        if one_name and not is_held:
            continue  # compare counts surfaces of a name too, so it would show these
        (programs.scratch / "exchanged").write_bytes(b"".join(blocks[: n - 1] + [blocks[n], blocks[n - 1]] + blocks[n + 1 :]) + rest)
        if not is_held:
            if programs.expect("", text, "compare", archive, "text", "exchanged"):
                yield SAME
            continue
        shown = programs.output("compare", archive, "text", "exchanged")
        if shown.startswith("scene=right refused="):
            yield REFUSED
        elif shown.startswith("name="):
            yield CHANGED
        elif shown == "" and one_name and given[n - 1] and given[n]:
            yield ALIKE
            before, after = (keyed(programs.output("list", archive, file)) for file in ("text", "exchanged"))
            if before != after:
                yield RELISTED
        else:
            programs.wrong("%d and %d are held in %r, and exchanged compare prints %r" % (n, n + 1, text[:300], shown[:300]))


def try_text(programs, rng, archive, text):
    """Compares all that is asked of a text, which is put into a file, and gives the outcomes."""
    (programs.scratch / "text").write_bytes(text)
    right = order.names(archive, text)
    programs.expect(right, text, "order", archive, "text")
    records, _ = scene.read(archive, text)
    if isinstance(records, int):
        programs.expect(order.pair(archive, text, 1, 2), text, "order", archive, "text", "1", "2")
        yield TEXT
        return
    yield AGAIN if right else ONCE
    held = {}
    for n, m in pairs_of(rng, len(records)):
        right = order.pair(archive, text, n, m)
        programs.expect(right, text, "order", archive, "text", str(n), str(m).zfill(rng.choice([1, 1, 5])))
        became = outcome(right)
        yield became
        if abs(n - m) == 1 and became in (FREE, DIRECT):
            held[min(n, m)] = became == DIRECT
    yield from exchanges(programs, archive, text, held)


def try_arguments(programs):
    """Arguments that are no question, and files that cannot be read."""
    (programs.scratch / "text").write_bytes(texts.lamps(65536))
    (programs.scratch / "folder").mkdir()
    text, missing, folder = (str(programs.scratch / name) for name in ("text", "missing", "folder"))
    asked = [[], [""], [missing], [folder], ["--archive", missing], [missing, "1", "2"]]
    asked += [["--archive"], ["-x"], [text, "1"], [text, "1", "2", "3"], ["--archive", text, "1"]]
    asked += [[text, *numbers] for numbers in (["1", ""], ["x", "2"], ["+1", "2"], ["1", "2 "], ["1", "000002"], ["100000", "2"])]
    for arguments in asked:
        programs.expect(order.answer(arguments), b"", "order", False, *arguments)


count = int(sys.argv[1]) if len(sys.argv) > 1 else 5000
seed = int(sys.argv[2]) if len(sys.argv) > 2 else 1
folder = (pathlib.Path(sys.argv[3]) if len(sys.argv) > 3 else TOP / "target/bin").resolve()
reached, rng = collections.Counter(), random.Random(seed)
with tempfile.TemporaryDirectory() as scratch:
    programs = Programs(folder, pathlib.Path(scratch))
    try_arguments(programs)
    for archive, text in every_text(seed, count):
        reached.update(try_text(programs, rng, archive, text))
for name in OUTCOMES + [RELISTED]:
    print("%6d %s" % (reached[name], name))
missed = [name for name in OUTCOMES if not reached[name]]
print("%d answers compared, %d differ%s" % (programs.compared, programs.differ, ", not reached: %s" % missed if missed else ""))
sys.exit(1 if programs.differ or missed else 0)
