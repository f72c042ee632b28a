#!/usr/bin/env python3
"""Two saves of a scene compared by name, written from request L1 alone: what the program compare is compared with.

    tools/compare.py [--archive] LEFT RIGHT        the lines of two files, or the refusal of one

compare_files(archive, left, right) gives the lines of two files, both read in one mode."""
import collections
import pathlib
import sys

import scene


class Refused(Exception):
    pass


def contents(text, records, reals):
    """What each key of a scene has. A key is a name and which definition of that name it is, from 1, surfaces counted."""
    times, keys = collections.Counter(), [None]  # number 0, for void and for no alias target, has no key
    for record in records:
        name = text[record[3] : record[3] + record[4]]
        times[name] += 1
        keys.append((name, times[name]))
    found = {}
    for key, record in zip(keys[1:], records):
        kind, modifier, target, _, _, place, strings, index, count, _, _ = record
        words = text[place:].split(maxsplit=strings)[:strings]
        found[key] = (kind, words, reals[index : index + count], keys[target], keys[modifier])
    return found


def read(archive, side, text):
    records, reals = scene.read(archive, text)
    if isinstance(records, int):
        raise Refused("scene=%s refused=%d place=%d\n" % (side, records, reals))
    return contents(text, records, reals)


def lines(left, right):
    out = []
    for name, nth in sorted(left.keys() | right.keys()):
        old, new = left.get((name, nth)), right.get((name, nth))
        if old != new:
            state = "left" if new is None else "right" if old is None else "changed"
            out.append("name=%s nth=%d state=%s\n" % (name.decode(), nth, state))
    return "".join(out)


def read_file(archive, side, path):
    try:
        text = pathlib.Path(path).read_bytes()
    except OSError:
        raise Refused("scene=%s unreadable\n" % side)
    return read(archive, side, text)


def compare_files(archive, left, right):
    try:
        return lines(read_file(archive, "left", left), read_file(archive, "right", right))
    except Refused as refused:
        return str(refused)


if __name__ == "__main__":
    archive = sys.argv[1:2] == ["--archive"]
    files = sys.argv[1 + archive :]
    sys.stdout.write(compare_files(archive, *files) if len(files) == 2 else "usage: compare [--archive] LEFT RIGHT\n")
