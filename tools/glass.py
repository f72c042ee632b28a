#!/usr/bin/env python3
"""The tidy text of a scene text with its glass moved: what the program glass is compared with.

    tools/glass.py [--archive] forth|back < TEXT        the moved text, or the refusal

The lines are those of tidy.py. Forth, glass of three reals gets its index spelled out; back, a fourth real spelled exactly so is
dropped. Whether the moved text can be read again is asked of scene.py."""
import sys

import scene
import tidy

INDEX = b"1.52"


def moved_reals(back, reals):
    if back:
        return reals[:3] if reals[3:] == [INDEX] else reals
    return reals + [INDEX] if len(reals) == 3 else reals


def lines(back, text):
    found = tidy.lines(text)
    for heading in found:
        yield heading
        if heading[1] == b"alias":
            continue
        strings, integers, (_, *reals) = next(found), next(found), next(found)
        if heading[1] == b"glass":
            reals = moved_reals(back, reals)
        yield from (strings, integers, [b"%d" % len(reals), *reals])


def moved(archive, back, text):
    refusal = scene.refusal(archive, text)
    if refusal:
        return refusal.encode()
    made = b"".join(b" ".join(words) + b"\n" for words in lines(back, text))
    reason, _ = scene.read(archive, made)
    return b"refused=%d place=0\n" % reason if isinstance(reason, int) else made


if __name__ == "__main__":
    *option, direction = sys.argv[1:]
    sys.stdout.buffer.write(moved(option == ["--archive"], direction == "back", sys.stdin.buffer.read()))
