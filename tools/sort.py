#!/usr/bin/env python3
"""A scene text with its statements grouped by type, as far as names allow: what the program sort is compared with.

    tools/sort.py [--archive] < TEXT        the sorted text, or the refusal

sorted_text(archive, text) gives either. Statements move as blocks of whole lines, so that the sorted text has the lines of the text.
Types, names and links are those that scene.py reads, and words are found by tidy.py."""
import collections
import sys

import scene
import tidy


def statements(text):
    """The place of each statement's first word, and the one behind its last."""
    words = tidy.Words(text)
    while (modifier := words.opening()) is not None:
        start = words.at - len(modifier)
        kind, _ = words.next(), words.next()
        if kind == b"alias":
            words.next()
        else:
            for _ in range(3):  # strings, integers, reals
                words.counted()
        yield start, words.at


def blocks(text):
    """The lines of each statement, with those above it that belong to no other; and what stands behind the last one."""
    if text and not text.endswith(b"\n"):
        raise scene.Refused(33, len(text))
    cuts = [0]
    for start, end in statements(text):
        if start < cuts[-1]:
            raise scene.Refused(34, start)
        cuts.append(text.index(b"\n", end) + 1)
    return [text[start:end] for start, end in zip(cuts, cuts[1:])], text[cuts[-1] :]


def held(text, records):
    """For each statement the earlier ones that have to stay before it, as the bits of one number."""
    names = [None] + [text[r[3] : r[3] + r[4]] for r in records]
    named, given, referred = (collections.defaultdict(int) for _ in range(3))  # by name, the statements so far
    found = []
    for number, r in enumerate(records, 1):
        bit, name, gives = 1 << number - 1, names[number], r[0] > scene.LAST_SURFACE
        references = {names[link] for link in (r[1], r[2]) if link}
        before = named[name]
        for reference in references:
            before |= given[reference]
        if gives:
            before |= referred[name]
        found.append(before)
        named[name] |= bit
        given[name] |= bit * gives
        for reference in references:
            referred[reference] |= bit
    return found


def order(kinds, held):
    """The statements as they are to come, from 0."""
    missing, last = (1 << len(kinds)) - 1, None
    while missing:
        free = (n for n, before in enumerate(held) if missing >> n & 1 and not before & missing)
        chosen = min(free, key=lambda n: (kinds[n] != last, kinds[n], n))
        missing, last = missing & ~(1 << chosen), kinds[chosen]
        yield chosen


def sorted_text(archive, text):
    records, _ = scene.read(archive, text)
    if isinstance(records, int):
        return scene.refusal(archive, text).encode()
    try:
        moved, rest = blocks(text)
    except scene.Refused as refused:
        reason, place = refused.answer
        return b"refused=%d place=%d line=%d\n" % (reason, place, scene.line_of(text, place))
    return b"".join(moved[n] for n in order([r[0] for r in records], held(text, records))) + rest


if __name__ == "__main__":
    sys.stdout.buffer.write(sorted_text(sys.argv[1:] == ["--archive"], sys.stdin.buffer.read()))
