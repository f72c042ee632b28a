#!/usr/bin/env python3
"""The tidy text of a scene text, written anew from its words: what the program tidy is compared with.

    tools/tidy.py [--archive] < TEXT        the tidy text, or the refusal

Whether a text is accepted is asked of scene.py; nothing else of it is used."""
import re
import sys

import scene

WORD = re.compile(rb"[^\t\n\x0b\x0c\r ]+")
LONGEST = 65536


class Words:
    """The words of an accepted text, one statement after the other."""

    def __init__(self, text):
        self.text, self.at = text, 0

    def opening(self):
        """The next statement's first word, with the comments before it passed over; None at the end."""
        while found := WORD.search(self.text, self.at):
            if not found.group().startswith(b"#"):
                return self.next()
            end = self.text.find(b"\n", found.start())
            self.at = len(self.text) if end < 0 else end
        return None

    def next(self):
        found = WORD.search(self.text, self.at)
        self.at = found.end()
        return found.group()

    def counted(self):
        return [self.next() for _ in range(int(self.next()))]


def lines(text):
    words = Words(text)
    while (modifier := words.opening()) is not None:
        kind, name = words.next(), words.next()
        if kind == b"alias":
            yield [modifier, kind, name, words.next()]
            continue
        yield [modifier, kind, name]
        for _ in range(3):  # strings, integers, reals
            found = words.counted()
            yield [b"%d" % len(found), *found]


def tidied(archive, text):
    refusal = scene.refusal(archive, text)
    if refusal:
        return refusal.encode()
    tidy = b"".join(b" ".join(words) + b"\n" for words in lines(text))
    return tidy if len(tidy) <= LONGEST else b"refused=23 place=0\n"


if __name__ == "__main__":
    sys.stdout.buffer.write(tidied(sys.argv[1:] == ["--archive"], sys.stdin.buffer.read()))
