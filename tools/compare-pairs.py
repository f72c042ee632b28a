#!/usr/bin/env python3
"""Whether the program compare prints what tools/compare.py does, on pairs of saves made from a seed and on texts at the limits.

    tools/compare-pairs.py [COUNT [SEED [FOLDER]]]

COUNT is 6000 and FOLDER target/bin if not given. Half of the pairs are read in the archive reading. In a pair the
second save is the first one edited, or another scene, or either is damaged or no file. Prints how often each edit was made, what the pairs came to, and how many differ in what the program prints: the
exit status is 1 if any does, or if an edit or an outcome turned up in none."""
import collections
import pathlib
import random
import subprocess
import sys
import tempfile

import compare
import scene
import texts

TOP = pathlib.Path(__file__).resolve().parent.parent
NAMES = texts.NAMES + ["wal", "walls", "Wall", "~", "-", "0", "desk.", "deskfront2"]
NO_FILES = ["missing", "folder"]
MIXTURES_REFUSED = ["refused=25", "refused=26"]
OUTCOMES = "equal,state=left,state=right,state=changed,left refused,right refused,left unreadable,right unreadable".split(",")
OUTCOMES += MIXTURES_REFUSED


def scene_of(rng, archive, most):
    """The statements of an accepted scene, each a list of words."""
    reader, statements = scene.Reader(archive, b"", 1024, 4096), []
    for _ in range(rng.randrange(most + 1)):
        words = texts.statement(rng, archive, [w[2] for w in statements if w[1] not in texts.SURFACES])
        used = len(reader.reals)
        reader.text, reader.at = " ".join(words).encode(), 0
        try:
            reader.statement()
            statements.append(words)
        except scene.Refused:
            del reader.reals[used:]
    settle(archive, statements)
    return statements


def settle(archive, statements):
    """Makes sides void, one mixture after the other, until none is undefined or closes a loop."""
    for words in [words for words in statements if words[1] == "mixfunc"]:
        reason, _ = scene.read(archive, "\n".join(" ".join(words) for words in statements).encode())
        if reason not in (25, 26):
            break
        words[4:6] = ["void", "void"]


def spelled(rng, statements):
    """A text of statements, with spacing and comments of its own."""
    blanks = [" "] * 6 + ["\n", "\t", "  ", "\r\n"]
    notes = ["", "", "", "\n", "# a note!\n", " \t# another\n"]
    lines = [rng.choice(notes) + "".join(w + rng.choice(blanks) for w in words) + "\n" for words in statements]
    return "".join(lines).encode("latin-1")


def parts(words):
    """Where a primitive's strings and its reals stand among its words; nothing of an alias."""
    if words[1] == "alias":
        return range(0), range(0)
    strings = range(4, 4 + int(words[3]))
    return strings, range(strings.stop + 2, len(words))


# Each edit changes a list of statements in place. It may come to nothing, or to a scene that is refused.


def places(statements, part):
    return [(words, at) for words in statements for at in parts(words)[part]]


def other_string(rng, statements):
    for words, at in rng.sample(places(statements, 0), 1):
        words[at] = rng.choice(NAMES)


def other_real(rng, statements):
    for words, at in rng.sample(places(statements, 1), 1):
        words[at] = rng.choice(texts.NUMERALS)


def zero_sign(rng, statements):
    zeros = [(words, at) for words, at in places(statements, 1) if float(words[at]) == 0]
    for words, at in rng.sample(zeros, 1):
        words[at] = "0" if words[at].startswith("-") else "-0.0"


def other_spelling(rng, statements):
    for words, at in rng.sample(places(statements, 1), 1):
        if set(words[at]) <= set("0123456789") and len(words[at]) < 8:
            words[at] = rng.choice(["+%s", "00%s", "%s.", "%s.00", "%se0", "%s0E-1"]) % words[at]


def other_type(rng, statements):
    primitives = [words for words in statements if words[1] != "alias"]
    for words in rng.sample(primitives, 1):
        counts = [len(part) for part in parts(words)]
        words[1] = rng.choice([t for t in scene.TYPES if scene.strings_allowed(t, counts[0]) and scene.reals_allowed(t, counts[1])])


def other_modifier(rng, statements):
    at = rng.randrange(len(statements))
    statements[at][0] = rng.choice(["void"] + [words[2] for words in statements[:at]])


def other_target(rng, statements):
    aliases = [at for at, words in enumerate(statements) if at and words[1] == "alias"]
    for at in rng.sample(aliases, 1):
        statements[at][3] = rng.choice(statements[:at])[2]


def alias_spelled_out(rng, statements):
    """An alias becomes a primitive with all that its target has."""
    aliases = [at for at, words in enumerate(statements) if words[1] == "alias"]
    for at in rng.sample(aliases, 1):
        source = statements[at]
        while source[1] == "alias":
            above = [words for words in statements[: statements.index(source)] if words[2] == source[3]]
            if not above:
                return
            source = above[-1]
        statements[at][1:] = [source[1], statements[at][2]] + source[3:]


def renamed(rng, statements):
    rng.choice(statements)[2] = rng.choice(NAMES)


def renamed_throughout(rng, statements):
    old, new = rng.choice(statements)[2], rng.choice(NAMES)
    for words in statements:
        for at in [0, 2] + [3] * (words[1] == "alias") + [4, 5] * (words[1] == "mixfunc"):
            words[at] = new if words[at] == old else words[at]


def removed(rng, statements):
    del statements[rng.randrange(len(statements))]


def added(rng, statements):
    at = rng.randrange(len(statements) + 1)
    statements.insert(at, texts.statement(rng, rng.random() < 0.5, [words[2] for words in statements[:at]]))


def doubled(rng, statements):
    statements.insert(rng.randrange(len(statements) + 1), list(rng.choice(statements)))


def swapped(rng, statements):
    at = rng.randrange(len(statements))
    statements[at : at + 2] = statements[at : at + 2][::-1]


def moved(rng, statements):
    words = statements.pop(rng.randrange(len(statements)))
    statements.insert(rng.randrange(len(statements) + 1), words)


EDITS = [
    other_string, other_real, zero_sign, other_spelling, other_type, other_modifier, other_target, alias_spelled_out, renamed,
    renamed_throughout, removed, added, doubled, swapped, moved,
]
WAYS = [edit.__name__ for edit in EDITS] + ["spoiled", "damaged", "another_scene"]


def edited(rng, statements, made):
    """The statements after up to four edits, now and then with one of them spoiled. An edit that finds nothing to change is left out."""
    statements = [list(words) for words in statements]
    for edit in rng.choices(EDITS, k=rng.choice([0, 1, 1, 1, 2, 4])):
        try:
            edit(rng, statements)
            made[edit.__name__] += 1
        except (ValueError, IndexError):
            pass
    if statements and rng.random() < 0.06:
        texts.spoil(rng, rng.choice(statements))
        made["spoiled"] += 1
    return statements


def damaged(rng, text, made):
    """A text cut short, with a byte changed, with a command, or with bytes up to the limit or past it; or the name of no file."""
    made["damaged"] += 1
    kind = rng.randrange(5)
    at = rng.randrange(len(text) + 1)
    if kind == 0:
        return text[:at]
    if kind == 1:
        return text[:at] + bytes([rng.choice([0, 10, 32, 33, 35, 48, 65, 127, 200, 255])]) + text[at + 1 :]
    if kind == 2:
        return text + b"\n" + b"#" * (65535 + rng.randrange(2) - len(text))
    if kind == 3:
        return text[:at] + b"!run it\n" + text[at:]
    return rng.choice(NO_FILES)


def pair(rng, archive, most, made):
    statements = scene_of(rng, archive, most)
    left = spelled(rng, statements)
    if rng.random() < 0.1:
        right = texts.text(rng, archive, most)
        made["another_scene"] += 1
    else:
        right = spelled(rng, edited(rng, statements, made))
    if rng.random() < 0.05:
        left = damaged(rng, left, made)
    if rng.random() < 0.05:
        right = damaged(rng, right, made)
    return (left, right) if rng.random() < 0.5 else (right, left)


def every_pair(rng, count, made):
    limits = texts.limits()
    yield False, limits["full"], limits["full"]
    yield False, limits["full"], limits["full"].replace(b" 1\n", b" 2\n")
    # As many lines as two scenes can have.
    yield False, texts.named(b"l", 1024), texts.named(b"r", 1024)
    for text in limits.values():
        yield False, text, b""
        yield False, b"", text
    # One in fifty is long.
    for number in range(count):
        archive = rng.random() < 0.5
        yield archive, *pair(rng, archive, 150 if number % 50 == 0 else 12, made)


def outcomes(answer):
    """What an answer says, by kind."""
    if answer.startswith("scene="):
        side, what = answer[len("scene=") :].split()[:2]
        return [side + " " + what.split("=")[0]] + [what] * (what in MIXTURES_REFUSED)
    return [line.split()[-1] for line in answer.splitlines()] or ["equal"]


def put(text, path):
    """A file of a text, or the path of no file."""
    if text in NO_FILES:
        return path.parent / text
    path.write_bytes(text)
    return path


count = int(sys.argv[1]) if len(sys.argv) > 1 else 6000
seed = int(sys.argv[2]) if len(sys.argv) > 2 else 1
folder = pathlib.Path(sys.argv[3]) if len(sys.argv) > 3 else TOP / "target/bin"
made, reached = collections.Counter(), collections.Counter()
compared = differ = 0
with tempfile.TemporaryDirectory() as scratch:
    scratch = pathlib.Path(scratch)
    (scratch / "folder").mkdir()
    for archive, left, right in every_pair(random.Random(seed), count, made):
        files = [put(left, scratch / "left"), put(right, scratch / "right")]
        answer = compare.compare_files(archive, *files)
        run = subprocess.run([folder / "compare", *["--archive"] * archive, *files], stdout=subprocess.PIPE)
        compared += 1
        reached.update(set(outcomes(answer)))
        if run.returncode != 0 or run.stdout != answer.encode():
            differ += 1
            if differ <= 5:
                print("differs on %r and %r: %r, not %r" % (left[:300], right[:300], run.stdout[:300], answer[:300]))
for name in WAYS:
    print("%6d %s" % (made[name], name.replace("_", " ")))
for outcome in OUTCOMES:
    print("%6d pairs with %s" % (reached[outcome], outcome))
missed = [name for name in WAYS if not made[name]] + [outcome for outcome in OUTCOMES if not reached[outcome]]
print("%d pairs compared, %d differ%s" % (compared, differ, ", not reached: %s" % missed if missed else ""))
sys.exit(1 if differ or missed else 0)
