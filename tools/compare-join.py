#!/usr/bin/env python3
"""Whether the program join prints what tools/join.py does, of bases and two hands' edits made from a seed and of those at the limits, and
of texts typed for them; and whether a join bears itself out: what is joined is accepted when it is typed, with the hands exchanged too.

    tools/compare-join.py [COUNT [SEED [FOLDER]]]

COUNT is 5000 and FOLDER target/bin if not given. Each base has up to 7 statements, one in fifty up to 60, and half are read in the archive
reading. Each hand's scene is the base after some edits, and statements are put in that make the names of three scenes meet as they may:
changed alike and differently, needed by one hand and dropped by the other, in loops. Some scenes are broken, for each of the reader's
reasons. A typed text is the joined one, spelled otherwise, in another order, with a definition more, less or changed, with a name twice, or
broken. Prints how often each outcome and each typed text turned up, and how many answers differ: the exit status is 1 if any does, or if
COUNT is at least 5000 and an outcome turned up in none."""
import collections
import pathlib
import random
import subprocess
import sys
import tempfile

import join
import scene
import texts

TOP = pathlib.Path(__file__).resolve().parent.parent
ENOUGH = 5000
SIDES = ["base", "left", "right"]
REASONS = [*range(1, 11), *range(12, 17), 25, 26, 28]  # the reader's; 11 is given no more
JOINED_REASONS = [1, 6, 13, 25, 26]  # those that a tidy text in order can have
MISSING, SURFACE, LOOP = "refused=31, a need is missing", "refused=31, a need is a surface", "refused=31, needs go in a loop"
ANTIMATTER = "of these joined with antimatter, in the archive reading"
OUTCOMES = ["joined", ANTIMATTER, "typed accepted"]
OUTCOMES += ["scene=%s refused=%d" % (side, reason) for side in SIDES for reason in REASONS]
OUTCOMES += ["refused=29", "refused=30", MISSING, SURFACE, LOOP]
OUTCOMES += ["scene=joined refused=%d" % reason for reason in JOINED_REASONS]
OUTCOMES += ["scene=typed refused=%d" % reason for reason in REASONS]
OUTCOMES += ["refused=32"]
NAMES = "wall desk deskfront deskfron deskfront2 lamp Lamp trim a b ab B x#y q void2 voi alias sphere ~ - 0 10 9 z".split() + ["n" * 64]
NUMERALS = [numeral for numeral in texts.NUMERALS if float(numeral) > 0]


# ---- statements, as lists of words


def text_of(statements):
    return "\n".join(" ".join(words) for words in statements).encode("latin-1")


def is_accepted(archive, statements):
    return not isinstance(scene.read(archive, text_of(statements))[0], int)


def names_of(*scenes):
    return {words[2] for statements in scenes for words in statements}


def givers(statements):
    return [words[2] for words in statements if words[1] not in texts.SURFACES]


def new_name(rng, *scenes):
    """A name that none of these scenes has."""
    free = [name for name in NAMES if name not in names_of(*scenes)]
    return rng.choice(free) if free and rng.random() < 0.9 else "m%d" % (len(names_of(*scenes)) + rng.randrange(1000) * 1000)


def new_statement(rng, archive, statements):
    """A statement with a name of its own, likely to be accepted below the others."""
    words = texts.statement(rng, archive, [name for name in givers(statements) if name[0] not in "#!"])
    words[2] = new_name(rng, statements)
    return words


def scene_of(rng, archive, most):
    """An accepted scene, each name once."""
    statements = []
    for _ in range(rng.randrange(most + 1)):
        statements.append(new_statement(rng, archive, statements))
        if not is_accepted(archive, statements):
            statements.pop()
    return statements


def parts(words):
    """Where a primitive's strings and its reals stand among its words; nothing of an alias."""
    if words[1] == "alias":
        return range(0), range(0)
    strings = range(4, 4 + int(words[3]))
    return strings, range(strings.stop + 2, len(words))


# ---- edits, each of one list of statements in place; those that find nothing to change raise an error


def other_real(rng, archive, statements):
    words = rng.choice([words for words in statements if parts(words)[1]])
    words[rng.choice(parts(words)[1])] = rng.choice(NUMERALS)


def zero_sign(rng, archive, statements):
    words, at = rng.choice([(words, at) for words in statements for at in parts(words)[1] if float(words[at]) == 0])
    words[at] = "0" if words[at].startswith("-") else "-0.0"


def other_spelling(rng, archive, statements):
    words = rng.choice([words for words in statements if parts(words)[1]])
    for at in parts(words)[1]:
        words[at] = respelled(rng, words[at])
    words[3] = words[3].zfill(rng.choice([1, 3, 5]))


def other_string(rng, archive, statements):
    words = rng.choice([words for words in statements if parts(words)[0]])
    words[rng.choice(parts(words)[0])] = rng.choice(["void"] + givers(statements))


def other_modifier(rng, archive, statements):
    rng.choice(statements)[0] = rng.choice(["void"] + givers(statements))


def other_target(rng, archive, statements):
    rng.choice([words for words in statements if words[1] == "alias"])[3] = rng.choice(givers(statements))


def other_body(rng, archive, statements):
    """A statement becomes one of another kind."""
    at = rng.randrange(len(statements))
    statements[at][1:] = [rng.choice(["light", "glow", "sphere"]), statements[at][2], *"0 0 4 1 1 1 1".split()]
    if statements[at][1] == "light":
        statements[at][5:] = "3 1 1 1".split()


def removed(rng, archive, statements):
    """A statement goes, mostly with all that needs it."""
    gone = {statements.pop(rng.randrange(len(statements)))[2]}
    while rng.random() < 0.95:
        users = [words for words in statements if gone & {words[0], *(words[3:4] if words[1] == "alias" else [])}]
        if not users:
            return
        for words in users:
            statements.remove(words)
            gone.add(words[2])


def added(rng, archive, statements):
    statements.append(new_statement(rng, archive, statements))


def renamed(rng, archive, statements):
    old, new = rng.choice(statements)[2], new_name(rng, statements)
    for words in statements:
        for at in [0, 2] + [3] * (words[1] == "alias") + [4, 5] * (words[1] == "mixfunc"):
            words[at] = new if words[at] == old else words[at]


def moved(rng, archive, statements):
    words = statements.pop(rng.randrange(len(statements)))
    statements.insert(rng.randrange(len(statements) + 1), words)


EDITS = [
    other_real, zero_sign, other_spelling, other_string, other_modifier, other_target, other_body, removed, added, renamed, moved,
]


def edited(rng, archive, statements):
    """The statements after some edits. One after which the scene is not accepted is mostly taken back."""
    for edit in rng.choices(EDITS, k=rng.choice([0, 1, 1, 2, 2, 4])):
        changed = [list(words) for words in statements]
        try:
            edit(rng, archive, changed)
        except (ValueError, IndexError):
            continue
        if is_accepted(archive, changed) or rng.random() < 0.02:
            statements = changed
    return statements


def respelled(rng, word):
    """A numeral of the same value, where it is a short whole number."""
    if word.isdigit() and len(word) < 8:
        return rng.choice(["%s", "+%s", "00%s", "%s.", "%s.00", "%se0", "%s0E-1"]) % word
    return word


# ---- names that meet: each puts statements into base, left and right


def light(name, modifier="void", value="1"):
    return [modifier, "light", name, *"0 0 3 1 1".split(), value]


def mixture(name, foreground="void", background="void"):
    return ["void", "mixfunc", name, "4", foreground, background, "v", "f.cal", "0", "0"]


def user(rng, name, own):
    """A statement that needs a name."""
    return rng.choice([[name, "sphere", own, *"0 0 4 0 0 0 1".split()], light(own, name), ["void", "alias", own, name]])


def alike(rng, name, other, base, left, right):
    """Both hands change, add or drop one name alike, mostly in another spelling."""
    kind = rng.randrange(3)
    if kind:
        base.append(light(name))
    if kind < 2:
        left.append(light(name, value="2"))
        right.append(light(name, value=rng.choice(["2", "2.0", "+2", "02e0"])))


def differently(rng, name, other, base, left, right):
    """Both change one name differently, one of them by dropping it; or they add it differently."""
    versions = [[light(name, value="2")], [light(name, value="-2")], [["void", "sphere", name, *"0 0 4 0 0 0 1".split()]], []]
    ours, theirs = rng.sample(versions, 2)
    if rng.random() < 0.7 or not (ours and theirs):
        base.append(light(name))
    left += ours
    right += theirs


def dropped(rng, name, other, base, left, right):
    """One hand drops what the other begins to need."""
    base.append(light(name))
    right += [light(name), user(rng, name, other)]


def made_a_surface(rng, name, other, base, left, right):
    """One hand makes a surface of what the other begins to need."""
    base.append(light(name))
    left.append(["void", "sphere", name, *"0 0 4 0 0 0 1".split()])
    right += [light(name), user(rng, name, other)]


def needs_in_a_loop(rng, name, other, base, left, right):
    """Each hand has one need the other."""
    base += [light(name), light(other)]
    left += [light(other), rng.choice([light(name, other), ["void", "alias", name, other]])]
    right += [light(name), rng.choice([light(other, name), ["void", "alias", other, name]])]


def side_dropped(rng, name, other, base, left, right):
    """One hand drops what the other begins to mix."""
    base.append(light(name))
    right += [light(name), mixture(other, *rng.choice([[name, "void"], ["void", name]]))]


def sides_in_a_loop(rng, name, other, base, left, right):
    """Each hand has one mix the other, or one mixes what the other puts below it."""
    base += [mixture(name), mixture(other)]
    left += [mixture(name, other), mixture(other)]
    right += [mixture(name), rng.choice([mixture(other, "void", name), [name] + mixture(other)[1:]])]


def twice(rng, name, other, base, left, right):
    """One scene has a name twice, surfaces counted."""
    statements = rng.choice([base, left, right])
    both = [light(name), rng.choice([light(name), ["void", "sphere", name, *"0 0 4 0 0 0 1".split()]])]
    statements += rng.sample(both, 2)


MEETINGS = [alike, alike, alike, differently, dropped, made_a_surface, needs_in_a_loop, side_dropped, sides_in_a_loop, twice]


# ---- texts


def spelled(rng, statements):
    """A text of statements, with spacing and comments of its own."""
    blanks = [" "] * 6 + ["\n", "\t", "  ", "\r\n"]
    notes = ["", "", "", "\n", "# a note!\n", " \t# another\n"]
    lines = [rng.choice(notes) + "".join(w + rng.choice(blanks) for w in words) + "\n" for words in statements]
    return "".join(lines).encode("latin-1")


FAULTS = {
    2: "void light caf\xe9 0 0 3 1 1 1",
    3: "void light %s 0 0 3 1 1 1" % texts.LONG,
    4: "!run it",
    5: "void light",
    7: "nowhere light new 0 0 3 1 1 1",
    8: "void plane new 0 0 0",
    9: "void light void 0 0 3 1 1 1",
    10: "void alias new nowhere",
    12: "void light new 0 0 4 1 1 1 1",
    14: "void light new 0 0 3 1 1..1 1",
    15: "void light new 0 0 3 1 1e23 1",
    16: "void sphere new 0 0 4 0 0 0 0",
    25: "void mixfunc new 4 nowhere void v f.cal 0 0",
    26: "void mixfunc new 4 void new v f.cal 0 0",
    28: "void antimatter new 1 void 0 0",
}


def broken(rng, statements):
    """A text that is refused, for any of the reader's reasons; or one that is damaged anyhow."""
    reason = rng.choice([0] + REASONS)
    text = spelled(rng, statements)
    if reason == 0:
        at = rng.randrange(len(text) + 1)
        return rng.choice([text[:at], text[:at] + bytes([rng.choice([0, 10, 32, 33, 35, 48, 65, 127, 255])]) + text[at + 1 :]])
    if reason == 1:
        return text + b"#" * (65537 - len(text))
    if reason in (6, 13):
        return text + (texts.sized(primitives=1025) if reason == 6 else texts.sized(reals=4097))
    at = len(statements) if reason == 5 else rng.randrange(len(statements) + 1)
    return spelled(rng, statements[:at]) + FAULTS[reason].encode("latin-1") + b"\n" + spelled(rng, statements[at:])


def words_of(archive, text):
    """The statements of an accepted text, each a list of words."""
    return [[w.decode() for words in found.lines for w in words] for found in join.definitions(archive, None, text)]


WAYS = "as it is,spelled otherwise,reordered,one more,one less,one changed,a name twice,broken,broken,broken".split(",")


def typed_text(rng, archive, statements):
    """What was done to the statements of a text, and the typed text that it gives."""
    way = rng.choice(WAYS if statements else ["as it is", "one more", "broken"])
    statements = [list(words) for words in statements]
    if way == "as it is":
        return way, text_of(statements) + b"\n"
    if way == "broken":
        return way, broken(rng, statements)
    if way == "spelled otherwise":
        for words in statements:
            for at in parts(words)[1]:
                words[at] = respelled(rng, words[at])
    elif way == "reordered":
        for _ in range(rng.choice([1, 1, 3])):
            moved(rng, archive, statements)
    elif way == "one more":
        statements.append(new_statement(rng, archive, statements))
    elif way == "one less":
        del statements[rng.choice([-1, rng.randrange(len(statements))])]
    elif way == "one changed":
        try:
            rng.choice([other_real, zero_sign, other_string, other_modifier, other_target, other_body])(rng, archive, statements)
        except IndexError:
            other_body(rng, archive, statements)
    else:
        again = statements.pop(rng.randrange(len(statements)))
        if statements and rng.random() < 0.5:  # as many definitions as there should be, one of them twice
            del statements[rng.choice([-1, rng.randrange(len(statements))])]
        for _ in range(2):
            statements.insert(rng.randrange(len(statements) + 1), again)
    return way, spelled(rng, statements)


def triple(rng, archive, most):
    base = scene_of(rng, archive, most)
    left, right = edited(rng, archive, base), edited(rng, archive, base)
    scenes = [[list(words) for words in statements] for statements in (base, left, right)]
    for meeting in rng.choices(MEETINGS, k=rng.choice([0, 0, 1, 1, 1, 2])):
        name = new_name(rng, *scenes)
        meeting(rng, name, new_name(rng, *scenes, [light(name)]), *scenes)
        if rng.random() < 0.5:
            scenes[1:] = scenes[:0:-1]
    found = [spelled(rng, statements) for statements in scenes]
    if rng.random() < 0.22:
        at = rng.randrange(3)
        found[at] = broken(rng, scenes[at])
    if rng.random() < 0.04:
        found[rng.randrange(3)] = texts.text(rng, archive, most)
    return found


def limit_triples():
    """Joins that just meet a limit or are just past it: of primitives, of reals and of bytes; and the longest waits for a need."""
    for of_right in (512, 513):
        yield b"", texts.named(b"l", 512), texts.named(b"r", of_right)
    yield texts.named(b"l", 1024), texts.named(b"l", 1024), texts.named(b"r", 1024)
    for reals in (2048, 2049):
        yield b"", texts.sized(reals=2048), texts.sized(reals=reals, word=2)
    for size in (65535, 65536):
        yield b"", texts.packed(size), b""
    yield b"", texts.packed(40000), texts.packed(40000).replace(b" n ", b" o ", 1)
    chain = b"".join(b"%s light l%d 0 0 3 1 1 1\n" % (b"l%d" % (n + 1) if n < 1023 else b"void", n) for n in range(1023, -1, -1))
    yield b"", chain, b""
    yield b"", b"", chain
    for text in texts.limits().values():
        yield b"", b"", text


def every_triple(rng, count):
    for scenes in limit_triples():
        yield False, scenes
    for number in range(count):
        archive = rng.random() < 0.5
        yield archive, triple(rng, archive, 60 if number % 50 == 0 else 7)


# ---- outcomes


def why_no_order(archive, scenes):
    """Why no order was found: a missing need before a surface, and that before a loop."""
    taken = join.picked(archive, *scenes)
    needs = {need for definition in taken.values() for need in definition.needs()}
    if needs - set(taken):
        return MISSING
    return LOOP if all(taken[need].gives() for need in needs) else SURFACE


def outcome(archive, scenes, printed):
    """What an answer says, without its place."""
    if printed.startswith((b"scene=", b"refused=")):
        said = printed.decode().split(" place=")[0]
        return why_no_order(archive, scenes[:3]) if said == "refused=31" else said
    return "joined" if len(scenes) == 3 else "typed accepted"


class Program:
    """The built program, run on files of a folder."""

    def __init__(self, folder, scratch):
        self.path, self.scratch, self.compared, self.differ = folder / "join", scratch, 0, 0

    def expect(self, right, arguments):
        """Whether it prints what it should. What is wrong is said."""
        run = subprocess.run([self.path, *arguments], stdout=subprocess.PIPE, stderr=subprocess.DEVNULL, cwd=self.scratch)
        self.compared += 1
        if run.returncode != 0 or run.stdout != right:
            shown = [(self.scratch / name).read_bytes()[:200] for name in arguments if (self.scratch / name).is_file()]
            self.wrong("join %s differs on %r: %r, not %r" % (" ".join(arguments), shown, run.stdout[:300], right[:300]))

    def wrong(self, what):
        self.differ += 1
        if self.differ <= 5:
            print(what)

    def put(self, **files):
        for name, text in files.items():
            (self.scratch / name).write_bytes(text)


def ask(program, archive, scenes):
    """Compares what is printed of three texts, or of four, and gives it."""
    names = [*SIDES, "typed"][: len(scenes)]
    program.put(**dict(zip(names, scenes)))
    right = join.printed(archive, *scenes)
    program.expect(right, ["--archive"] * archive + names)
    return right


def try_joined(program, archive, scenes, joined):
    """A joined text is accepted when it is typed, with the hands exchanged too."""
    base, left, right = scenes
    for hands in [(left, right)] + [(right, left)] * (len(joined) < 10000):
        if not ask(program, archive, [base, *hands, joined]).startswith(b"joined "):
            program.wrong("%r is joined from %r, and refused" % (joined[:300], [text[:300] for text in scenes]))


def try_triple(program, rng, archive, scenes):
    """Compares what is printed of a triple and of a text typed for it, and gives both outcomes and what was done to the typed one."""
    joined = ask(program, archive, scenes)
    became = outcome(archive, scenes, joined)
    yield became
    if became == "joined":
        try_joined(program, archive, scenes, joined)
        if b" antimatter " in joined:
            yield ANTIMATTER
    try:
        statements = words_of(archive, joined if became == "joined" else scenes[1])
    except join.Refused:
        statements = []
    way, typed = typed_text(rng, archive, statements)
    became = outcome(archive, [*scenes, typed], ask(program, archive, [*scenes, typed]))
    if became.startswith("scene=typed") or became in ("typed accepted", "refused=32"):
        yield became
        yield "typed " + way + (", accepted" if became == "typed accepted" else ", refused")


def try_arguments(program):
    """Arguments that are no question, and files that cannot be read."""
    program.put(text=b"void light lamp 0 0 3 1 1 1\n")
    asked = [[], ["text"], ["text"] * 2, ["text"] * 5, ["--archive"] * 4, ["--archive"] + ["text"] * 2, ["-x"] + ["text"] * 3]
    asked += [["text", "text", "-"], ["text", "text", "text", "--archive"], ["--archive"] + ["text"] * 3, ["text"] * 3, ["text"] * 4]
    asked += [["missing" if at == missing else "text" for at in range(count)] for count in (3, 4) for missing in range(count)]
    for arguments in asked:
        files = [name if name.startswith("-") else str(program.scratch / name) for name in arguments]
        program.expect(join.answer(files), arguments)


count = int(sys.argv[1]) if len(sys.argv) > 1 else ENOUGH
seed = int(sys.argv[2]) if len(sys.argv) > 2 else 1
folder = (pathlib.Path(sys.argv[3]) if len(sys.argv) > 3 else TOP / "target/bin").resolve()
reached, rng = collections.Counter(), random.Random(seed)
with tempfile.TemporaryDirectory() as scratch:
    program = Program(folder, pathlib.Path(scratch))
    try_arguments(program)
    for archive, scenes in every_triple(rng, count):
        reached.update(try_triple(program, rng, archive, scenes))
for name in OUTCOMES + sorted(name for name in reached if name not in OUTCOMES):
    print("%6d %s" % (reached[name], name))
missed = [name for name in OUTCOMES if not reached[name]] if count >= ENOUGH else []
print("%d answers compared, %d differ%s" % (program.compared, program.differ, ", not reached: %s" % missed if missed else ""))
sys.exit(1 if program.differ or missed else 0)
