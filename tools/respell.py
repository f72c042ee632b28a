#!/usr/bin/env python3
"""Spells the repository's own definitions and lemmas as today's Rattle does, behind the kit's port.py: is_blank for isBlank, accept_forth for accept-forth.

usage: python3 tools/respell.py [--check]     at the top of the repository, once, right behind port.py

A name turns where a file of specs/ or proofs/ declares it. A name that the kit has too turns only in a file that does not take it from the kit. A type keeps its
capital and the dash behind it. In the proof of a function (proofs/F/) names that Rattle makes stay: there turn what is taken from the repository's
own modules, fields of its own records, and the proof's own lemmas. In .rt files clauses and ghost items turn, in pages the names in code spans.
Where two names of a file would fall together, it says so and writes nothing."""

import collections
import os
import re
import subprocess
import sys

TOP = os.getcwd()
WORD = re.compile(r'[^\s(){}.;,@"«»]+')
CAMEL = re.compile(r"^[a-z][a-z0-9_]*[A-Z]\w*'*$")
DASHED = re.compile(r"^[a-z]\w*'*(-\w+'*)+$")
DECLARED = re.compile(r"(?m)^ *(?:\w+ )*?(\S+)(?: \{[^{}\n]*\})* :")
LET = re.compile(r"\blet +([^\s:={}()]+)")
QUIET = re.compile(r'--[^\n]*|\{-.*?-\}|"(?:[^"\\\n]|\\.)*"', re.S)
USE = re.compile(r"\b(?:pub )?use ([^\s;{]+?)\.?(\{[^}]*\})?(?: as ([^\s;]+))?(?=;|[ \t]*$)", re.M)
# Into Type, so types: they get a capital.
TYPES = {"bodyLink": "BodyLink"}


def plain(text):
    return QUIET.sub(" ", text)


def snake(name):
    return re.sub(r"(?<=[a-z0-9])[A-Z]+", lambda m: "_" + m[0].lower(), name).replace("-", "_")


def turns(name):
    return CAMEL.match(name) or DASHED.match(name) and not re.search(r"-[A-Z]", name)


def files_of(top, ends):
    for folder, below, names in os.walk(top):
        below[:] = sorted(b for b in below if b not in ("out", "target", ".git"))
        yield from (os.path.join(folder, n) for n in sorted(names) if n.endswith(ends))


def read(path):
    with open(path, encoding="utf-8", errors="replace") as f:
        return f.read()


def is_low(path):
    return bool(re.search(r"/(specs|proofs)/\w+\.antt$", path))


kit = os.path.dirname(subprocess.run(["rt", "doc"], capture_output=True, text=True).stdout.strip())
KIT = set()
for p in files_of(os.path.join(kit, "rattle"), (".antt",)):
    KIT.update(WORD.findall(plain(read(p))))

crates = set(os.listdir(os.path.join(TOP, "crates")))
antt = list(files_of(os.path.join(TOP, "crates"), (".antt",)))
OWN = set()
for p in antt:
    if is_low(p):
        text = plain(read(p))
        found = set(DECLARED.findall(text)) | set(LET.findall(text))
        found |= {w for w in WORD.findall(text) if w not in KIT}
        OWN.update(w for w in found if turns(w))
TABLE = {w: TYPES.get(w) or snake(w) for w in OWN}


def is_own(path):
    steps = path.split(".")
    return steps[0] == "Rattle" and len(steps) > 1 and steps[1] in crates


def names_in(items):
    """The names that an import brings in, as (name, alias)."""
    for it in re.split(r"[,\s]+as[,\s]+|,", items.strip("{}").replace("\n", " ")):
        it = it.strip()
        if it:
            yield it


def of_kit(text):
    """The names, and the aliases of modules, that a file takes from the kit."""
    names, modules = set(), set()
    for path, items, alias in USE.findall(text):
        if is_own(path):
            continue
        names.update(names_in(items) if items else [])
        if not items:
            modules.add(alias or path.split(".")[-1])
    return names, modules


def of_own(text):
    names = set()
    for path, items, alias in USE.findall(text):
        if is_own(path) and items:
            names.update(names_in(items))
    return names


def turned(text, may, said):
    """The text with each word that may turn, turned; a word right behind a kit's module stays."""
    table = {}

    def one(m):
        w = m[0]
        new = TABLE.get(w)
        if new is None or not may(w, text, m.start()):
            return w
        table[w] = new
        return new

    parts, at = [], 0
    for q in QUIET.finditer(text):
        parts.append(turn_code(text, at, q.start(), one))
        quiet = q[0]
        if quiet.startswith("--") or quiet.startswith("{-"):
            quiet = re.sub(r"`[^`\n]+`", lambda s: re.sub(r"[\w'-]+", lambda w: TABLE.get(w[0], w[0]), s[0]), quiet)
        parts.append(quiet)
        at = q.end()
    parts.append(turn_code(text, at, len(text), one))
    said.update(table)
    return "".join(parts)


def turn_code(text, at, end, one):
    out, last = [], at
    for m in WORD.finditer(text, at, end):
        out.append(text[last : m.start()])
        out.append(one(m))
        last = m.end()
    out.append(text[last:end])
    return "".join(out)


def head_of(text, start):
    """What stands before a dot right before start, or None."""
    if start == 0 or text[start - 1] != ".":
        return None
    m = re.search(r"([^\s(){};,@\"«»]*)\.$", text[max(0, start - 300) : start])
    return m[1] if m else ""


def low_rule(text):
    code = plain(text)
    names, modules = of_kit(code)
    here = of_own(code) | set(DECLARED.findall(code)) | set(LET.findall(code))

    def may(w, t, start):
        head = head_of(t, start)
        if not turns(w) and (w not in here or (head or "").startswith("Rattle.")):
            return False
        if head is None:
            return w not in names
        first = head.split(".")[0]
        return not (first in modules or (head and first[:1].islower() and first in ("mathlib", "lib", "borrow", "denote", "native", "core")) or head.startswith("Prim.") or head.startswith("Rattle.std"))

    return may


def proof_rule(text):
    code = plain(text)
    own = of_own(code)
    kit_names, modules = of_kit(code)
    made = set()
    for m in re.finditer(r"(?m)^ *(?:\w+ )*?(\S+)(?: \{[^{}\n]*\})* :([^\n]*)", code):
        if re.search(r"\b(tie|\S*lts|goal)\.(Need|invariant|decreases)", m[2]) or re.search(r"[-_]spec$", m[1]):
            made.add(m[1])
    local = (set(DECLARED.findall(code)) | set(LET.findall(code))) - made

    def may(w, t, start):
        head = head_of(t, start)
        if not turns(w) and (w not in own or head is not None):
            return False
        if head is None:
            return w in own or (w in local and w not in kit_names)
        if CAMEL.match(w):
            return w not in KIT
        return is_own(head)

    return may


def source_rule(text):
    names = set()
    for path, items, alias in USE.findall(text):
        if not is_own(path):
            names.update(names_in(items) if items else [])
    return lambda w, t, start: w not in names 


def bare(text):
    """The names that stand behind no dot."""
    return {m[0] for m in WORD.finditer(text) if m.start() == 0 or text[m.start() - 1] != "."}


def clashes(old, new, said):
    """The names that fall together in a file."""
    before = bare(plain(old))
    back = collections.defaultdict(set)
    for w in before:
        back[said.get(w, w)].add(w)
    return [sorted(ws) for n, ws in back.items() if len(ws) > 1]


def given_way(name):
    """A lemma's name that would have its function's."""
    return snake(name) + "_lem"


def turn_rt(text, said):
    """A source file: words of the table that no Rust can be, in clauses and ghost items."""
    def one(m):
        w = m[0]
        if w in TABLE and turns(w):
            said[w] = TABLE[w]
            return TABLE[w]
        return w

    names = source_rule(text)
    out, at = [], 0
    for q in re.finditer(r'//[^\n]*|b?"(?:\\.|[^"\\])*"|b?\'(?:\\.|[^\'\\])\'', text, re.S):
        out.append(turn_code(text, at, q.start(), lambda m: one(m) if names(m[0], text, m.start()) else m[0]))
        quiet = q[0]
        if quiet.startswith("//"):
            quiet = re.sub(r"`[^`\n]+`", lambda s: re.sub(r"[\w'-]+", lambda w: TABLE.get(w[0], w[0]), s[0]), quiet)
        out.append(quiet)
        at = q.end()
    out.append(turn_code(text, at, len(text), lambda m: one(m) if names(m[0], text, m.start()) else m[0]))
    return "".join(out)


def part_ways():
    """A lemma that would have its function's name ends in _lem."""
    found = set()
    for p in antt:
        text, said = read(p), {}
        new = turned(text, low_rule(text) if is_low(p) else proof_rule(text), said)
        for ws in clashes(text, new, said):
            dashed = [w for w in ws if DASHED.match(w)]
            if is_low(p) or dashed:
                found.update(dashed or [w for w in ws if not CAMEL.match(w)])
    for w in sorted(found):
        TABLE[w] = given_way(w)
        print(f"{w} becomes {TABLE[w]}")


def main():
    bad, writes = [], []
    part_ways()
    for p in antt:
        text, said = read(p), {}
        new = turned(text, low_rule(text) if is_low(p) else proof_rule(text), said)
        for ws in clashes(text, new, said):
            bad.append(f"{p}: {' '.join(ws)}")
        if new != text:
            writes.append((p, new))
    for p in files_of(os.path.join(TOP, "crates"), (".rt",)):
        text, said = read(p), {}
        new = turn_rt(text, said)
        for ws in clashes(text, new, said):
            # A function of Rust and a definition may have one name.
            if not any(re.search(rf"\bfn {w}\b", text) or re.search(rf"(?<![\w]){w}\(", text) for w in ws):
                bad.append(f"{p}: {' '.join(ws)}")
        if new != text:
            writes.append((p, new))
    for p in files_of(os.path.join(TOP, "crates"), (".edit",)):
        text = read(p)
        new = turn_code(text, 0, len(text), lambda m: TABLE.get(m[0], m[0]))
        if new != text:
            writes.append((p, new))
    spelled = {w for p in antt for w in WORD.findall(read(p))} | {TABLE[w] for w in TABLE}

    def in_page(w):
        """A name of a page: what turns above, and what port.py turned already."""
        w = w.replace("′", "'")
        return TABLE.get(w) or (snake(w) if turns(w) and snake(w) in spelled else w)

    pages = ["README.md"] + [os.path.join("docs", n) for n in sorted(os.listdir("docs")) if n.endswith(".md") and n not in ("scope.md",)]
    for p in pages:
        text = read(p)
        new = re.sub(r"`[^`\n]+`", lambda s: s[0] if "/" in s[0] and " " in s[0] else re.sub(r"[\w'′-]+", lambda w: in_page(w[0]), s[0]), text)
        if new != text:
            writes.append((p, new))
    print("\n".join(bad))
    print(f"{len(TABLE)} names, {len(writes)} files, {len(bad)} clashes")
    if bad or "--check" in sys.argv:
        return 1 if bad else 0
    for p, new in writes:
        with open(p, "w", encoding="utf-8") as f:
            f.write(new)
    return 0


raise SystemExit(main())
