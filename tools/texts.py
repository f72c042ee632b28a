#!/usr/bin/env python3
"""Scene texts to try a reader on, valid and damaged, made from a seed: texts(seed, count, most) yields
(archive, text, record_room, real_room), half of them for the archive reading, with at most so many statements each, a quarter of them
mostly mixtures. Every reason for refusing turns up among them, 6 and 13 by the smaller rooms, but not 1. Some statements are glass, with
three reals or with four, of which the last is often spelled `1.52` or nearly so. lined_texts(seed, count, most) yields (archive, text)
with few types in each text and, mostly, each statement on lines of its own, so that sort can cut it into blocks; few_names(seed, count,
most) yields such texts whose names are few too, so that many are given more than once.

    tools/texts.py NAME      writes a text at or just past a limit of document 01: see limits; or a stored one of two saves that
                             have no name in common, left or right"""
import collections
import random
import sys

import scene

NAMES = ["wall", "desk", "deskfront", "lamp", "trim", "a", "x#y", "q!", "void2", "alias", "sphere", "n" * 64]
NUMERALS = "0 1 -1 .5 2. 1e3 -2.5e-3 +7 0.0 -0 100 3.25 1E2 9e-22 123456789012345 .001".split()
INDICES = "1.52 1.52 1.520 1.5 +1.52".split()
BAD_NUMERALS = ". e5 1e 1.2.3 1e1000 0x1 -".split()
LARGE_NUMERALS = "1e23 1000000000000000 1e-23 9999999999999999".split()
LONG = "y" * 65
SURFACES = scene.TYPES[: scene.LAST_SURFACE]
NEW_TYPES = [kind for kind in scene.TYPES if kind != "antimatter"]


def statement(rng, archive, names):
    """A statement as words, likely to be accepted after those whose names are given."""
    modifier = rng.choice(["void"] + names * 2) if names else "void"
    if names and rng.random() < 0.2:
        return [modifier, "alias", rng.choice(NAMES), rng.choice(names)]
    kind = rng.choice(scene.TYPES if archive or rng.random() < 0.2 else NEW_TYPES)
    if rng.random() < 0.1:
        kind = "glass"
    strings = rng.choice([n for n in range(7) if scene.strings_allowed(kind, n)])
    reals = rng.choice([n for n in range(13) if scene.reals_allowed(kind, n)])
    words = [modifier, kind, rng.choice(NAMES)]
    words += [str(strings).zfill(rng.choice([1, 1, 2, 5]))] + [rng.choice(NAMES + ["#s", "!s"]) for _ in range(strings)]
    if kind == "mixfunc" and rng.random() < 0.95:
        words[4:6] = rng.choices(["void"] + names, k=2)
    words += [rng.choice(["0", "0", "00"]), str(reals)]
    values = []
    for _ in range(reals):
        for _ in range(8):
            is_index = kind == "glass" and len(values) == 3
            word = rng.choice(INDICES if is_index and rng.random() < 0.8 else NUMERALS)
            value = float(word)
            if not scene.breach(kind, values + [value]) or rng.random() < 0.05:
                break
        values.append(value)
        words.append(word)
    return words


def spoil(rng, words):
    """One word changed so that a reason for refusing is likely."""
    kind = rng.random()
    if kind < 0.1:
        words[2] = "void"
        return
    if kind < 0.2:
        words[1:] = ["alias", "trim", "nowhere"]
        return
    at = rng.randrange(len(words))
    words[at] = rng.choice(
        ["void", "alias", "sphere", "nowhere", LONG, "caf\xe9", "6", "000000", "-1", "!", "#", ""]
        + BAD_NUMERALS
        + LARGE_NUMERALS
        + NUMERALS
    )
    if rng.random() < 0.2:
        del words[at]


def scene_of_any(rng, archive, most):
    """Up to so many statements of all types, some of them spoiled. Now and then a mixture has a side that is defined below it, which may
    close a loop."""
    statements, names = [], []
    for _ in range(rng.randrange(most + 1)):
        words = statement(rng, archive, names)
        if rng.random() < 0.12:
            spoil(rng, words)
        elif words[1] not in SURFACES or rng.random() < 0.1:
            names.append(words[2])
        statements.append(words)
    for words in statements:
        if words[1:2] == ["mixfunc"] and len(words) > 5 and names and rng.random() < 0.2:
            words[rng.choice([4, 5])] = rng.choice(names)
    return statements


def scene_of_mixtures(rng, most):
    """Up to so many statements, most of them mixtures and aliases of mixtures, with sides above and below: each leads only to what has
    a lower rank, so there is no loop, but for a link that now and then is put in against the ranks."""
    surfaces = rng.randrange(min(most, 2) + 1)
    count = rng.randrange(most - surfaces + 1)
    ranks = rng.choice([list(range(count)), list(range(count))[::-1], rng.sample(range(count), count)])
    kinds = rng.choices(["mixfunc", "alias", "light"], rng.choice([[8, 3, 3], [5, 1, 8]]), k=count)
    near = rng.choice([2, count])  # how far below in rank a side may be: chains, or anything

    def below(k, among):
        found = [n for n in among if ranks[n] < ranks[k] and ranks[k] - ranks[n] <= near]
        return rng.choice(found) if found and rng.random() < 0.9 else None

    def name(k):
        return "void" if k is None else "m%d" % k

    statements = []
    for k, kind in zip(range(count), kinds):
        modifier = name(below(k, range(k)) if rng.random() < 0.3 else None)
        target = below(k, range(k))
        if kind == "alias" and target is not None:
            statements.append([modifier, kind, name(k), name(target)])
        elif kind == "mixfunc":
            sides = [name(below(k, range(count))) for _ in range(2)]
            statements.append([modifier, kind, name(k), "4", *sides, "v", "f.cal", "0", "0"])
        else:
            statements.append([modifier, "light", name(k), *"0 0 3 1 1 1".split()])
    mixtures = [words for words in statements if words[1] == "mixfunc"]
    if mixtures and rng.random() < 0.3:
        rng.choice(mixtures)[rng.choice([4, 5])] = name(rng.randrange(count))
    if mixtures and rng.random() < 0.05:
        rng.choice(mixtures)[rng.choice([4, 5])] = "nowhere"
    for k in range(surfaces):
        modifier = name(rng.choice([rng.randrange(count), ranks.index(count - 1)]) if count else None)
        statements.append([modifier, "sphere", rng.choice(["s%d" % k, "m%d" % k]), *"0 0 4 0 0 0 1".split()])
    return statements


def text(rng, archive, most):
    out = b""
    statements = scene_of_mixtures(rng, most) if rng.random() < 0.25 else scene_of_any(rng, archive, most)
    for words in statements:
        if rng.random() < 0.2:
            out += rng.choice([b"# note \xff!\n", b"\n", b"  \t\n", b"#\n", b" # trailing\r\n"])
        blanks = [b" "] * 6 + [b"\n", b"\t", b"  ", b"\r\n", b"\x0b", b"\x0c"]
        out += b"".join(w.encode("latin-1") + rng.choice(blanks) for w in words)
        out += rng.choice([b"\n", b"\n", b" ", b""])
    if rng.random() < 0.05:
        out += rng.choice([b"!run it\n", b"# the end", b"!", b"void", b"void sphere"])
    damage = rng.random()
    if out and damage < 0.08:
        out = out[: rng.randrange(len(out))]
    elif out and damage < 0.16:
        at = rng.randrange(len(out))
        out = out[:at] + bytes([rng.choice([0, 9, 10, 32, 33, 35, 48, 65, 127, 200, 255])]) + out[at + rng.randrange(2) :]
    elif out and damage < 0.18:
        out = out.rstrip()
    return out


def scene_of_few_types(rng, archive, most):
    """Up to so many statements of few types, most of them accepted; names come again, those of finishes as surfaces' too."""
    modifiers = [kind for kind in (scene.TYPES if archive else NEW_TYPES) if kind not in SURFACES]
    kinds = rng.sample(SURFACES, rng.choice([1, 2, 3])) + rng.sample(modifiers, rng.choice([1, 2, 3])) + ["alias"]
    statements, names = [], []
    for _ in range(rng.randrange(most + 1)):
        words = statement(rng, archive, names)
        while words[1] not in kinds:
            words = statement(rng, archive, names)
        if words[1] not in SURFACES:
            names.append(words[2])
        statements.append(words)
    return statements


def scene_of_few_names(rng, archive, most):
    """Up to so many statements of few names, which are given more than once, by surfaces that have a finish's name too. Now and then a
    statement stands twice; and as a side leads to the last of its name, some mixtures close a loop."""
    mixtures = rng.random() < 0.2
    statements = scene_of_mixtures(rng, most - 1) if mixtures else scene_of_few_types(rng, archive, most - 1)
    few = rng.sample(NAMES, rng.choice([2, 3, 5, 8]))
    renamed = collections.defaultdict(lambda: rng.choice(few), void="void")
    for words in statements:
        for at in [0, 2] + [3] * (words[1] == "alias") + [4, 5] * (words[1] == "mixfunc"):
            words[at] = renamed[words[at]]
    if statements and rng.random() < 0.3:
        again = rng.choice(statements)
        statements.insert(statements.index(again), list(again))
    return statements


NOTES = [b"# note \xff!\n", b"\n", b"  \t\n", b"#\n", b"\t# void sphere s 0 0 4\r\n"]
LINE_ENDS = [b"\n", b"\n", b"\n", b" \t\n", b"\r\n", b" # behind\n", b"\t#void\x00\n", b"\n\n"]
NO_LINE_ENDS = [b" ", b"\r", b"\x0b", b" # behind\r"]


def in_lines(rng, statements):
    """A text with each statement on lines of its own, below comments and blank lines. Now and then a statement begins on the line of
    another one or in the comment behind it, the last line is not ended, or a word is spoiled."""
    if statements and rng.random() < 0.1:
        spoil(rng, rng.choice(statements))
    crowded = rng.randrange(len(statements)) if statements and rng.random() < 0.15 else None
    out = b""
    for number, words in enumerate(statements):
        out += b"".join(rng.choices(NOTES, k=rng.choice([0, 0, 0, 1, 2])))
        spelled = [w.encode("latin-1") + rng.choice([b" "] * 9 + [b"\n", b"\t", b"  ", b"\r\n", b"\x0c"]) for w in words[:-1]]
        out += b"".join(spelled) + words[-1].encode("latin-1")
        out += rng.choice(NO_LINE_ENDS if number == crowded else LINE_ENDS)
    out += b"".join(rng.choices(NOTES, k=rng.choice([0, 0, 1])))
    return out[:-1] if rng.random() < 0.05 else out


def lined_texts(seed, count, most):
    rng = random.Random(seed)
    for _ in range(count):
        archive = rng.random() < 0.5
        mixtures = rng.random() < 0.25
        yield archive, in_lines(rng, scene_of_mixtures(rng, most) if mixtures else scene_of_few_types(rng, archive, most))


def few_names(seed, count, most):
    rng = random.Random(seed)
    for _ in range(count):
        archive = rng.random() < 0.5
        yield archive, in_lines(rng, scene_of_few_names(rng, archive, most))


def texts(seed, count, most):
    rng = random.Random(seed)
    for _ in range(count):
        records = rng.choice([0, 1, 2, 3, 5] + [1024] * 15)
        reals = rng.choice([0, 3, 8, 20] + [4096] * 16)
        archive = rng.random() < 0.5
        yield archive, text(rng, archive, most), records, reals


def sized(primitives=1, reals=0, word=1, size=0):
    """An accepted text but for its limits: so many primitives and reals, a name of so many bytes, and so many bytes in all, which a
    comment makes up."""
    name = b"n" * word
    out = b"void mixfunc " + name + b" 4 void void c d 0 %d" % reals + b" 1" * reals + b"\n"
    if primitives > 1:
        out += b"void alias a " + name + b"\n"
    out += b"a alias a a\n" * (primitives - 2)
    return out + b"#" * (size - len(out))


def packed(size):
    """An accepted text of so many bytes, at least 100, that spends one blank between two words and has none at its end: its tidy
    text is one byte longer."""
    count = max(2, -(-size // 64))
    front, back = b"void mixfunc n %d void void" % (count + 2), b" 0 0"
    least, longer = divmod(size - len(front) - len(back) - count, count)
    words = [b"s" * (least + (k < longer)) for k in range(count)]
    return b" ".join([front, *words]) + back


PANE = b"void glass g\n0\n0\n3 1 1 1\n"


def panes():
    """Accepted texts whose glass, moved forth, just meets a limit or is just past it: of bytes, and of reals."""
    room = 65536 - len(PANE) - len(b" 1.52") - 1
    return [PANE + packed(room), PANE + packed(room + 1), PANE + sized(reals=4092), PANE + sized(reals=4093)]


def lamps(size):
    """An accepted text of so many bytes, which a comment makes up, and of as many primitives as there may be: a light above each sphere
    that has it, where sorting brings all lights above all spheres."""
    out = b"".join(b"void light l%d 0 0 3 1 1 1\nl%d sphere s 0 0 4 0 0 0 1\n" % (n, n) for n in range(512))
    return out + b"#" * (size - len(out) - 1) + b"\n"


def named(first, count):
    """An accepted text of so many primitives, each with a name of its own that begins with these bytes."""
    return b"".join(b"void mixfunc %s%d 4 void void c d 0 0\n" % (first, n) for n in range(count))


def limits():
    """All limits met at once, and each alone just past."""
    return dict(
        full=sized(1024, 4096, 64, 65536),
        primitives=sized(primitives=1025),
        reals=sized(reals=4097),
        word=sized(word=65),
        bytes=sized(size=65537),
    )


if __name__ == "__main__":
    sys.stdout.buffer.write(dict(limits(), left=named(b"l", 600), right=named(b"r", 600))[sys.argv[1]])
