#!/usr/bin/env python3
"""Two hands' edits of a base scene joined, and a typed join checked: what the program join is compared with.

    tools/join.py [--archive] BASE LEFT RIGHT              the joined text, or the refusal
    tools/join.py [--archive] BASE LEFT RIGHT TYPED        the counts of a typed text that is accepted, or the refusal

join(archive, base, left, right) gives the joined text and check(archive, base, left, right, typed) the typed one; both raise Refused,
which knows the scene, the reason, the place and, for 30, the name. printed(archive, base, left, right[, typed]) gives what is printed of
texts, definitions(archive, side, text) the definitions of one, and picked(archive, base, left, right) those to be joined. Texts are read by
scene.py, and words are found by tidy.py."""
import collections
import pathlib
import sys

import scene
import tidy

USAGE = "usage: join [--archive] BASE LEFT RIGHT [TYPED]\n"
NAME_TWICE, BOTH_CHANGED, NO_ORDER, OTHER_DEFINITIONS = 29, 30, 31, 32


class Refused(Exception):
    """A refusal: the reader's names its scene."""

    def __init__(self, reason, place=0, scene=None, name=None):
        self.reason, self.place, self.scene, self.name = reason, place, scene, name

    def line(self):
        named = "" if self.scene is None else "scene=%s " % self.scene
        return named + "refused=%d place=%d" % (self.reason, self.place) + ("" if self.name is None else " name=%s" % self.name.decode())


class Unreadable(Exception):
    """A file of a scene that cannot be read."""

    def line(self):
        return "scene=%s unreadable" % self.args


class Definition(collections.namedtuple("Definition", "name modifier kind content lines")):
    """A statement: an alias has its target as content, a primitive its strings and the bits of its reals. The lines are its spelling."""

    def meaning(self):
        return self.modifier, self.kind, self.content

    def gives(self):
        """Whether others may refer to it."""
        return self.kind.decode() not in scene.SURFACES

    def needs(self):
        return {self.modifier} - {b"void"} | ({self.content} if self.kind == b"alias" else set())


def definitions(archive, side, text):
    """The definitions of a text, in its order. A text that could not be loaded is None."""
    if text is None:
        raise Unreadable(side)
    records, reals = scene.read(archive, text)
    if isinstance(records, int):
        raise Refused(records, reals, side)
    found, lines = [], tidy.lines(text)
    for record, heading in zip(records, lines):
        modifier, kind, name, *target = heading
        if target:
            found.append(Definition(name, modifier, kind, *target, [heading]))
        else:
            counted = [next(lines) for _ in range(3)]  # strings, integers, reals
            content = tuple(counted[0][1:]), tuple(reals[record[7] : record[7] + record[8]])
            found.append(Definition(name, modifier, kind, content, [heading] + counted))
    return found


def meanings(found):
    return {definition.name: definition.meaning() for definition in found}


def picked(archive, base, left, right):
    """The definitions to be joined, by name."""
    scenes = [definitions(archive, side, text) for side, text in (("base", base), ("left", left), ("right", right))]
    if any(len(meanings(found)) < len(found) for found in scenes):
        raise Refused(NAME_TWICE)
    before, ours, theirs = map(meanings, scenes)
    of_left, of_right = ({definition.name: definition for definition in found} for found in scenes[1:])
    taken = {}
    for name in [*of_left, *of_right]:
        old, one, other = (meaning.get(name) for meaning in (before, ours, theirs))
        if one == other or other == old:
            chosen = of_left.get(name)
        elif one == old:
            chosen = of_right.get(name)
        else:
            raise Refused(BOTH_CHANGED, name=name)
        if chosen is not None:
            taken[name] = chosen
    return taken


def arranged(taken):
    """The definitions in their order: of those whose needs stand, the one of the least name is next."""
    missing, given, order = {name: definition.needs() for name, definition in taken.items()}, set(), []
    while missing:
        ready = [name for name, needs in missing.items() if needs <= given]
        if not ready:
            raise Refused(NO_ORDER)
        chosen = min(ready)
        del missing[chosen]
        order.append(taken[chosen])
        if taken[chosen].gives():
            given.add(chosen)
    return order


def join(archive, base, left, right):
    order = arranged(picked(archive, base, left, right))
    text = b"".join(b" ".join(words) + b"\n" for definition in order for words in definition.lines)
    definitions(archive, "joined", text)
    return text


def check(archive, base, left, right, typed):
    order = arranged(picked(archive, base, left, right))
    found = definitions(archive, "typed", typed)
    if len(found) != len(order) or meanings(found) != meanings(order):
        raise Refused(OTHER_DEFINITIONS)
    return typed


def printed(archive, *scenes):
    """What the program prints of three texts, or of four with a typed one."""
    try:
        if len(scenes) == 3:
            return join(archive, *scenes)
        records, reals = scene.read(archive, check(archive, *scenes))
        return b"joined primitives=%d reals=%d\n" % (len(records), len(reals))
    except (Refused, Unreadable) as refused:
        return (refused.line() + "\n").encode()


def load(path):
    try:
        return pathlib.Path(path).read_bytes()
    except OSError:
        return None


def answer(arguments):
    archive = arguments[:1] == ["--archive"]
    files = arguments[archive:]
    if len(files) not in (3, 4) or any(file.startswith("-") for file in files):
        return USAGE.encode()
    return printed(archive, *map(load, files))


if __name__ == "__main__":
    sys.stdout.buffer.write(answer(sys.argv[1:]))
