#!/usr/bin/env python3
"""Whether the order of two entries of a scene text mattered, and which names it gives more than once: what the program order is compared
with.

    tools/order.py [--archive] FILE NUMBER NUMBER        what holds the order of two entries, or that nothing does
    tools/order.py [--archive] FILE                      each name given more than once, and what uses each definition of it

pair(archive, text, n, m) and names(archive, text) give these lines, or the refusal. What an entry gives and refers to is taken from the
words of its statement, which tidy.py finds; only what uses a definition is told by the links that scene.py reads."""
import collections
import pathlib
import re
import sys

import scene
import tidy

USAGE = "usage: order [--archive] FILE [NUMBER NUMBER]\n"
NUMBER = re.compile("[0-9]{1,5}")


def entries(text):
    """Of each statement of an accepted text the name that it gives, None for a surface, and the names that it refers to."""
    lines = tidy.lines(text)
    for modifier, kind, name, *target in lines:
        if kind != b"alias":
            for _ in range(3):  # strings, integers, reals
                next(lines)
        yield None if kind.decode() in scene.SURFACES else name, {modifier, *target} - {b"void"}


def binding(upper, other):
    """The name that binds two entries, the upper one's if it does; None if they are not bound."""
    (own, references), (given, other_references) = upper, other
    if own is not None and (own == given or own in other_references):
        return own
    return given if given in references else None


def chain(found, n, m):
    """How many bonds the shortest chains from an entry down to another have, and the lowest entry that one of them goes to first; None
    where there is no chain."""
    ways = {n: (0, None)}
    for k in range(n + 1, m + 1):
        over = [(bonds + 1, first or k) for j, (bonds, first) in ways.items() if binding(found[j - 1], found[k - 1])]
        if over:
            ways[k] = min(over)
    return ways.get(m)


def pair(archive, text, n, m):
    refusal = scene.refusal(archive, text)
    if refusal:
        return refusal
    found, (n, m) = list(entries(text)), sorted((n, m))
    asked = "first=%d second=%d" % (n, m)
    if not 1 <= n < m <= len(found):
        return asked + " refused=17\n"
    way = chain(found, n, m)
    if way is None:
        return asked + " order=free\n"
    _, by = way
    return asked + " order=held by=%d name=%s\n" % (by, binding(found[n - 1], found[by - 1]).decode())


def names(archive, text):
    records, _ = scene.read(archive, text)
    if isinstance(records, int):
        return scene.refusal(archive, text)
    given, used = collections.defaultdict(list), collections.defaultdict(list)
    for number, r in enumerate(records, 1):
        if r[0] > scene.LAST_SURFACE:
            given[text[r[3] : r[3] + r[4]]].append(number)
        for link in {r[1], r[2]}:
            used[link].append(number)
    lines = []
    for name, numbers in given.items():
        if len(numbers) > 1:
            line = [(n, records[n - 1][10], ",".join(map(str, used[n]))) for n in numbers]
            lines.append("name=%s%s\n" % (name.decode(), "".join(" no=%d line=%d used=%s" % one for one in line)))
    return "".join(lines)


def answer(arguments):
    archive = arguments[:1] == ["--archive"]
    asked = arguments[archive:]
    if len(asked) not in (1, 3) or asked[0].startswith("-") or not all(map(NUMBER.fullmatch, asked[1:])):
        return USAGE
    file, *numbers = asked
    try:
        text = pathlib.Path(file).read_bytes()
    except OSError:
        return "scene=%s unreadable\n" % file
    return pair(archive, text, *map(int, numbers)) if numbers else names(archive, text)


if __name__ == "__main__":
    sys.stdout.write(answer(sys.argv[1:]))
