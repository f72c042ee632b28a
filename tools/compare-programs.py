#!/usr/bin/env python3
"""Whether the programs list, finishes and shows print what tools/scene.py does, tidy what tools/tidy.py does, glass, forth and back,
what tools/glass.py does, and sort what tools/sort.py does, on texts made from a seed and on those at the limits, each on standard input
and half of them in the archive reading; whether a tidy text is its own, with the same listing, and shows the same; whether a text with
its glass moved forth comes back, to the tidy text if it had no glass to move back; whether a sorted text is its own, and compare prints
nothing of it and the text; whether a text that the new reading accepts has the same listing in the archive one, below its line; and
whether tidy, glass and sort alone say their refusals on standard error too.

    tools/compare-programs.py [COUNT [SEED [FOLDER]]]

COUNT is 20000 and FOLDER target/bin if not given. So many texts are of any layout, and as many more have, mostly, each statement on
lines of its own. Prints how many texts were accepted or refused for each reason, what became of glass that was moved forth and of texts
that were to be sorted, and how many texts differ in what a program prints: the exit status is 1 if any does, or if a reason or the
acceptance of a text, an outcome of moving or sorting or a text that comes back turned up in none."""
import collections
import pathlib
import subprocess
import sys
import tempfile

import glass
import scene
import sort
import texts
import tidy

TOP = pathlib.Path(__file__).resolve().parent.parent
REASONS = [0, *range(1, 11), *range(12, 17), 25, 26, 28]  # 0 is accepted, and 11 is given no more
SAYS_REFUSALS = ["tidy", "glass", "sort"]
MOVED = ["glass moved", "glass moved and back again", "moved text refused=1", "moved text refused=13"]
SORTED = ["sorted", "sorted into another text", "not sorted refused=33", "not sorted refused=34"]


def every_text(seed, count):
    for text in texts.limits().values():
        yield False, text
    # The tidy text just fits, or is a byte too long.
    for text in (texts.packed(65535), texts.packed(65535) + b"\n", texts.packed(65536)):
        yield False, text
    for text in texts.panes():
        yield False, text
    yield False, texts.lamps(65536)
    # One in a hundred is long.
    long = count // 100
    for archive, text, _, _ in texts.texts(seed, long, 200):
        yield archive, text
    for archive, text, _, _ in texts.texts(seed + 1, count - long, 8):
        yield archive, text
    yield from texts.lined_texts(seed, long, 200)
    yield from texts.lined_texts(seed + 1, count - long, 12)


def reason_of(listing):
    first = listing.split(b" ")[0]
    return int(first[len(b"refused=") :]) if first.startswith(b"refused=") else 0


def moves(archive, text, neat):
    """What glass has to print of a text, and of the same moved forth; and what became of an accepted one."""
    forth, back = (glass.moved(archive, is_back, text) for is_back in (False, True))
    asked = [("glass forth", archive, text, forth), ("glass back", archive, text, back)]
    if reason_of(neat):
        return asked, []
    if reason_of(forth):
        return asked, ["moved text refused=%d" % reason_of(forth)]
    returned = neat if back == neat else glass.moved(archive, True, forth)
    asked += [("glass forth", archive, forth, forth), ("glass back", archive, forth, returned)]
    return asked, MOVED[: 1 + (back == neat)] if forth != neat else []


def sorts(archive, text, scratch):
    """What sort has to print of a text and of the sorted one, and compare of both, which are put into files; and what became of it."""
    right = sort.sorted_text(archive, text)
    asked = [("sort", archive, text, right)]
    if reason_of(right):
        return asked, ["not sorted refused=%d" % reason_of(right)]
    (scratch / "text").write_bytes(text)
    (scratch / "sorted").write_bytes(right)
    asked += [("sort", archive, right, right), ("compare text sorted", archive, text, b"")]
    return asked, SORTED[: 1 + (right != text)]


count = int(sys.argv[1]) if len(sys.argv) > 1 else 20000
seed = int(sys.argv[2]) if len(sys.argv) > 2 else 1
folder = (pathlib.Path(sys.argv[3]) if len(sys.argv) > 3 else TOP / "target/bin").resolve()
reasons, outcomes, differ = collections.Counter(), collections.Counter(), 0
with tempfile.TemporaryDirectory() as scratch:
    for archive, text in every_text(seed, count):
        right = scene.listing(archive, text).encode()
        reasons[reason_of(right)] += 1
        neat = tidy.tidied(archive, text)
        shows = scene.shows(archive, text).encode()
        asked = [("list", archive, text, right), ("shows", archive, text, shows), ("tidy", archive, text, neat)]
        asked += [("finishes", archive, text, scene.finishes(archive, text).encode())]
        if not neat.startswith(b"refused="):
            asked += [("list", archive, neat, right), ("shows", archive, neat, shows), ("tidy", archive, neat, neat)]
        if not archive and reason_of(right) == 0:
            asked += [("list", True, text, b"archive=1\n" + right)]
        for more, became in (moves(archive, text, neat), sorts(archive, text, pathlib.Path(scratch))):
            asked += more
            outcomes.update(became)
        for command, archive, text, right in asked:
            program, *arguments = command.split()
            said = right if program in SAYS_REFUSALS and right.startswith(b"refused=") else b""
            call = [folder / program, *["--archive"] * archive, *arguments]
            run = subprocess.run(call, input=text, capture_output=True, cwd=scratch)
            if run.returncode != 0 or run.stdout != right or run.stderr != said:
                differ += 1
                if differ <= 5:
                    print("%s%s differs on %r: %r, not %r" % (command, " --archive" * archive, text[:300], run.stdout[:300], right[:300]))
for reason in REASONS:
    print("%6d %s" % (reasons[reason], "refused=%d" % reason if reason else "accepted"))
for outcome in MOVED + SORTED:
    print("%6d %s" % (outcomes[outcome], outcome))
missed = [reason for reason in REASONS if reasons[reason] == 0]
missed += [outcome for outcome in MOVED + SORTED if outcomes[outcome] == 0]
print("%d compared, %d differ%s" % (sum(reasons.values()), differ, ", not reached: %s" % missed if missed else ""))
sys.exit(1 if differ or missed else 0)
