#!/usr/bin/env python3
"""A reader of scene texts, written from the documents alone: what the definitions and the program are compared with.

    tools/scene.py [--archive] [finishes|shows] < TEXT        the listing of a text, its finishes or what its surfaces may show, or
                                                             its refusal

read(archive, text, record_room, real_room) gives (reason, place) for a refused text, else (records, reals): lists of eleven
numbers, and the bits of the doubles. Only the archive reading accepts antimatter. pairs_of(text, records) gives the sides of the
mixtures of an accepted text."""
import sys

import numerals

SURFACES = "source sphere bubble polygon cone cup cylinder tube ring".split()
MATERIALS = (
    "light illum glow spotlight mirror plastic metal trans plastic2 metal2 trans2 dielectric interface glass antimatter".split()
)
TYPES = SURFACES + MATERIALS + ["mixfunc"]
EXACT_REALS = dict(
    source=4, sphere=4, bubble=4, cone=8, cup=8, cylinder=7, tube=7, ring=8, light=3, illum=3, glow=4, spotlight=7, mirror=3,
    plastic=5, metal=5, trans=7, plastic2=6, metal2=6, trans2=8, dielectric=5, interface=8, antimatter=0,
)
BLANKS = bytes([9, 10, 11, 12, 13, 32])
LAST_SURFACE = 9
MIXFUNC = len(TYPES)


class Refused(Exception):
    def __init__(self, reason, place):
        self.answer = (reason, place)


def strings_allowed(kind, n):
    if kind in ("plastic2", "metal2", "trans2", "mixfunc"):
        return n >= 4
    if kind == "antimatter":
        return n >= 1
    return n == (1 if kind in ("illum", "mirror") else 0)


def reals_allowed(kind, n):
    if kind == "polygon":
        return n >= 9 and n % 3 == 0
    if kind == "glass":
        return n in (3, 4)
    if kind == "mixfunc":
        return True
    return n == EXACT_REALS[kind]


def breach(kind, values):
    """Whether the last of the values completes a breach of a house rule. Values are exact signed fractions or floats."""
    k, x = len(values), values[-1]
    if (kind in ("sphere", "bubble", "dielectric", "glass") and k == 4) or (kind in ("cylinder", "tube") and k == 7):
        return not x > 0
    if kind == "interface" and k in (4, 8):
        return not x > 0
    if kind in ("plastic2", "metal2", "trans2") and k in (5, 6):
        return not x > 0
    if kind in ("cone", "cup"):
        return (k in (7, 8) and x < 0) or (k == 8 and x == 0 and values[6] == 0)
    if kind == "ring":
        if k == 6:
            return values[3] == values[4] == x == 0
        return (k == 7 and x < 0) or (k == 8 and not x > values[6])
    if kind == "source" and k == 3:
        return values[0] == values[1] == x == 0
    return False


def count(word):
    return int(word) if 1 <= len(word) <= 5 and all(48 <= b <= 57 for b in word) else None


def line_of(text, place):
    """The line of a place, from 1."""
    return text.count(b"\n", 0, place) + 1


class Reader:
    def __init__(self, archive, text, record_room, real_room):
        self.archive = archive
        self.text, self.at = text, 0
        self.record_room, self.real_room = record_room, real_room
        self.names, self.records, self.reals = [], [], []

    def skip(self):
        while self.at < len(self.text) and self.text[self.at] in BLANKS:
            self.at += 1

    def word(self):
        self.skip()
        start = self.at
        if start == len(self.text):
            raise Refused(5, start)
        while self.at < len(self.text) and self.text[self.at] not in BLANKS:
            self.at += 1
        word = self.text[start : self.at]
        if any(not 33 <= b <= 126 for b in word):
            raise Refused(2, start)
        if len(word) > 64:
            raise Refused(3, start)
        return word, start

    def latest(self, name):
        """The latest definition of a name: surfaces are none."""
        for number in range(len(self.names), 0, -1):
            if self.names[number - 1] == name and self.records[number - 1][0] > LAST_SURFACE:
                return number
        return 0

    def counted(self, allowed):
        word, place = self.word()
        n = count(word)
        if n is None or not allowed(n):
            raise Refused(12, place)
        return n, place

    def named(self):
        name, place = self.word()
        if name == b"void":
            raise Refused(9, place)
        return name, place

    def statement(self):
        modifier, place = self.word()
        if len(self.records) == self.record_room:
            raise Refused(6, place)
        link = 0 if modifier == b"void" else self.latest(modifier)
        if modifier != b"void" and link == 0:
            raise Refused(7, place)
        kind, place = self.word()
        if kind == b"alias":
            name, at = self.named()
            target, place = self.word()
            number = self.latest(target)
            if number == 0:
                raise Refused(10, place)
            source = self.records[number - 1]
            record = [source[0], link, number, at, len(name)] + source[5:9] + [0, line_of(self.text, at)]
        else:
            kind = kind.decode()
            if kind not in TYPES:
                raise Refused(8, place)
            if kind == "antimatter" and not self.archive:
                raise Refused(28, place)
            name, at = self.named()
            record = [TYPES.index(kind) + 1, link, 0, at, len(name)] + self.arguments(kind) + [0, line_of(self.text, at)]
        earlier = self.latest(name)
        if earlier and record[0] > LAST_SURFACE:
            self.records[earlier - 1][9] = len(self.records) + 1
        self.names.append(name)
        self.records.append(record)

    def arguments(self, kind):
        strings, _ = self.counted(lambda n: strings_allowed(kind, n))
        first = 0
        for k in range(strings):
            _, place = self.word()
            first = place if k == 0 else first
        self.counted(lambda n: n == 0)
        reals, place = self.counted(lambda n: reals_allowed(kind, n))
        if len(self.reals) + reals > self.real_room:
            raise Refused(13, place)
        index, values = len(self.reals), []
        for _ in range(reals):
            word, place = self.word()
            answer = numerals.answer(word).split()
            if answer[0] != "0":
                raise Refused(int(answer[0]), place)
            bits = int(answer[1], 16)
            values.append(numerals.value(bits))
            if breach(kind, values):
                raise Refused(16, place)
            self.reals.append(bits)
        return [first, strings, index if reals else 0, reals]

    def mixtures(self):
        """Refuses a side that is not defined anywhere, and then a loop, when all is read."""
        pairs = pairs_of(self.text, self.records)
        if any(record[0] == MIXFUNC for record in self.records):  # modifiers alone lead to no loop
            reached = closure(links(self.records, pairs), range(1, len(self.records) + 1))
            for number, record in enumerate(self.records, 1):
                if reached[number] >> number & 1:
                    raise Refused(26, record[3])

    def read(self):
        if len(self.text) > 65536:
            return (1, 0)
        try:
            while True:
                self.skip()
                if self.at == len(self.text):
                    self.mixtures()
                    return self.records, self.reals
                mark = self.text[self.at]
                if mark == ord("#"):
                    end = self.text.find(b"\n", self.at)
                    self.at = len(self.text) if end < 0 else end + 1
                elif mark == ord("!"):
                    return (4, self.at)
                else:
                    self.statement()
        except Refused as refused:
            return refused.answer


def pairs_of(text, records):
    """Foreground and background of each primitive, (0, 0) where it is no mixture; refuses the first name that is not defined."""
    last = {text[r[3] : r[3] + r[4]]: number for number, r in enumerate(records, 1) if r[0] > LAST_SURFACE}
    last[b"void"] = 0
    pairs = []
    for r in records:
        if r[0] != MIXFUNC:
            pairs.append((0, 0))
        elif r[2]:
            pairs.append(pairs[r[2] - 1])
        else:
            foreground, background = text[r[5] :].split(maxsplit=2)[:2]
            places = r[5], text.index(background, r[5] + len(foreground))
            for name, place in zip((foreground, background), places):
                if name not in last:
                    raise Refused(25, place)
            pairs.append((last[foreground], last[background]))
    return pairs


def links(records, pairs):
    """Where each number's modifier and sides lead, as the bits of one number; number 0 leads nowhere."""
    return [0] + [(1 << r[1] | 1 << foreground | 1 << background) & ~1 for r, (foreground, background) in zip(records, pairs)]


def closure(links, passable):
    """All that each number leads to, with only passable numbers in between: Warshall's way."""
    reached = list(links)
    for between in passable:
        beyond = reached[between]
        if beyond:
            reached = [bits | beyond if bits >> between & 1 else bits for bits in reached]
    return reached


def is_material(record):
    return LAST_SURFACE < record[0] < MIXFUNC


def shown(records, pairs):
    """The materials that each primitive may show, smallest number first."""
    numbers = range(1, len(records) + 1)
    reached = closure(links(records, pairs), [n for n in numbers if not is_material(records[n - 1])])
    return [[n for n in numbers if bits >> n & 1 and is_material(records[n - 1])] for bits in reached[1:]]


def read(archive, text, record_room=1024, real_room=4096):
    return Reader(archive, text, record_room, real_room).read()


def index_of(text, records):
    """The index of 2,048 entries that an accepted text leaves, and how many entries its searches looked at."""
    names = [None] + [text[r[3] : r[3] + r[4]] for r in records]
    index, looked = [0] * 2048, 0

    def search(name):
        nonlocal looked
        entry = 0
        for b in name:
            entry = (31 * entry + b) % 2048
        looked += 1
        while index[entry] and names[index[entry]] != name:
            entry, looked = (entry + 1) % 2048, looked + 1
        return entry

    for number, r in enumerate(records, 1):
        for link in (r[1], r[2]):
            if link:
                search(names[link])
        if r[0] > LAST_SURFACE:
            index[search(names[number])] = number
    return index, looked


def listing(archive, text):
    records, reals = read(archive, text)
    if isinstance(records, int):
        return "refused=%d place=%d\n" % (records, reals)
    lines = ["archive=1\n"] * archive + ["primitives=%d reals=%d\n" % (len(records), len(reals))]
    for number, r in enumerate(records, 1):
        name = text[r[3] : r[3] + r[4]].decode()
        lines.append("no=%d mod=%d alias=%d type=%s name=%s next=%d\n" % (number, r[1], r[2], TYPES[r[0] - 1], name, r[9]))
    return "".join(lines)


def finish(records, number):
    """The first material on the way of modifiers, and how many links lead there."""
    links, at = 0, records[number - 1][1]
    while at:
        links += 1
        if 10 <= records[at - 1][0] <= 24:
            break
        at = records[at - 1][1]
    return at, links


def refusal(archive, text):
    """The line of a refused text in all programs but list and compare; none for an accepted one."""
    reason, place = read(archive, text)
    return "refused=%d place=%d line=%d\n" % (reason, place, line_of(text, place)) if isinstance(reason, int) else None


def finishes(archive, text):
    records, _ = read(archive, text)
    if isinstance(records, int):
        return refusal(archive, text)

    names = [text[r[3] : r[3] + r[4]].decode() for r in records]
    lines = []
    for number, r in enumerate(records, 1):
        if r[0] <= LAST_SURFACE:
            at, links = finish(records, number)
            name, line = (names[at - 1], records[at - 1][10]) if at else ("", 0)
            nth, of = names[:at].count(name), names.count(name)
            lines.append("no=%d line=%d type=%s name=%s" % (number, r[10], TYPES[r[0] - 1], names[number - 1]))
            lines.append(" finish=%d finish_name=%s finish_line=%d nth=%d of=%d links=%d\n" % (at, name, line, nth, of, links))
    return "".join(lines)


def shows(archive, text):
    records, _ = read(archive, text)
    if isinstance(records, int):
        return refusal(archive, text)
    lines = []
    for number, (r, materials) in enumerate(zip(records, shown(records, pairs_of(text, records))), 1):
        if r[0] <= LAST_SURFACE:
            name = text[r[3] : r[3] + r[4]].decode()
            lines.append("no=%d name=%s shows=%s\n" % (number, name, ",".join(map(str, materials))))
    return "".join(lines)


if __name__ == "__main__":
    answer = finishes if "finishes" in sys.argv[1:] else shows if "shows" in sys.argv[1:] else listing
    sys.stdout.write(answer(sys.argv[1:2] == ["--archive"], sys.stdin.buffer.read()))
