#!/usr/bin/env python3
"""Counts the older forms in crates/*/src, by the points of docs/DESIGN-PASS.md.

    python3 tools/count-forms.py            the counts
    python3 tools/count-forms.py 3          the places of point 3, a line each
"""
import collections
import glob
import os
import re
import sys

os.chdir(os.path.dirname(os.path.dirname(os.path.abspath(__file__))))
ABSENT = set("BadByte Malformed TooLarge Refused Stopped Clash TooLong Unreadable Unknown End Ended Nothing Miss Free".split())
FLAG = re.compile(r"^    (?:pub )?(?:(?:good|known|worked|full): bool|fault: u8),", re.M)


def functions(path):
    """Name, parameters, result, clauses, body and first line of each function."""
    lines = open(path, encoding="utf-8").read().splitlines()
    at = 0
    while at < len(lines):
        head = re.match(r"(\s*)(?:pub )?(?:extern \"C\" )?fn (\w+)", lines[at])
        if not head:
            at += 1
            continue
        indent, start = head[1], at
        while lines[at] != indent + "{" and not lines[at].endswith(" {"):
            at += 1
        top = "\n".join(lines[start:at + 1])
        first = at + 1
        while lines[at] != indent + "}":
            at += 1
        signature = re.split(r"\n\s*(?:requires|ensures)", top)[0]
        parameters = re.search(r"\((.*)\)", signature, re.S)
        result = re.search(r"-> (.*?)(?: \{)?$", signature, re.S)
        yield (head[2], parameters[1] if parameters else "", result[1].strip() if result else "", top, "\n".join(lines[first:at]), start + 1)


def all_functions():
    for path in sorted(glob.glob("crates/*/src/*.rt")):
        for function in functions(path):
            yield (path,) + function


def without_comments(text):
    return re.sub(r"//.*", "", text)


def enums_and_structs():
    for path in sorted(glob.glob("crates/*/src/*.rt")):
        text = open(path, encoding="utf-8").read()
        for found in re.finditer(r"^(?:pub )?(enum|struct) (\w+)[^{;]*\{(.*?)^\}", text, re.M | re.S):
            yield path, text[:found.start()].count("\n") + 1, found[1], found[2], without_comments(found[3])


def absent_values():
    for path, line, sort, name, body in enums_and_structs():
        words = re.findall(r"^    (?:pub )?(\w+)", body, re.M)
        if sort == "enum" and ABSENT & set(words) and set(words) - ABSENT and not re.search(r"(Reason|Error|Fault)$", name):
            yield f"{path}:{line} enum {name}: {' '.join(words)}"
        if sort == "struct" and FLAG.search(body):
            yield f"{path}:{line} struct {name}: a flag beside values"


def number_codes():
    for path, name, parameters, result, top, body, line in all_functions():
        if "extern" in top.split("fn ")[0] or "/host_" in path or "/kribbelsteen/" in path:
            continue
        if result in ("u8", "u32") and re.search(r"refusal|fault|reason|_test|rule|class_of$", name):
            yield f"{path}:{line} fn {name} -> {result}"
    for path, line, sort, name, body in enums_and_structs():
        for found in re.findall(r"(\w+)\((?:\w+, )?u32\b", body):
            if found in ("Refused", "Stopped"):
                yield f"{path}:{line} {name}::{found}(u32 ..)"
    for path in sorted(glob.glob("crates/*/src/*.rt")):
        for number, text in enumerate(open(path, encoding="utf-8"), 1):
            found = re.match(r"(?:pub )?const (\w+): (u8|u32|usize) = (\d+|OR_MORE.*);", text)
            if found and int(re.sub(r"\D", "", "0" + found[3]) or 0) < 300 and not re.match(r"MOST|WIDTH|LINE$|PAIR$|WORDS|LIMIT|NUMBERS$|TYPES$", found[1]):
                yield f"{path}:{number} const {found[1]}: {found[2]}"


def shape(body):
    names = {}
    text = re.sub(r"\s+", " ", without_comments(body)).strip()
    text = re.sub(r"\b\d[\w.]*\b|b'.*?'|b\".*?\"", "0", text)
    return re.sub(r"\b[A-Za-z_]\w*\b", lambda it: it[0] if it[0] in ("if", "else", "while", "return", "match", "let", "mut", "as", "for", "in", "loop") else names.setdefault(it[0], f"x{len(names)}"), text)


def twins():
    groups = collections.defaultdict(list)
    for path, name, parameters, result, top, body, line in all_functions():
        kinds = re.sub(r"\b\w+:", "", re.sub(r"\bu8\b|\bu32\b|\bu64\b|\busize\b|\bf64\b|\b[A-Z]\w*\b", "T", parameters))
        text = shape(body)
        if len(text) > 6:
            groups[re.sub(r"\s+", " ", kinds).strip(), text].append(f"{path}:{line} fn {name}")
    for members in groups.values():
        if len(members) > 1:
            yield from (f"{place}  (one of {len(members)})" for place in members)


def counted_loops():
    for path in sorted(glob.glob("crates/*/src/*.rt")):
        lines = open(path, encoding="utf-8").read().splitlines()
        for at, text in enumerate(lines):
            head = re.match(r"(\s*)(?:let \w+ = )?(?:'\w+: )?(while (?!let)(.*)|loop) \{$", text)
            if not head:
                continue
            end = at + 1
            while not re.match(head[1] + r"\}", lines[end]):
                end += 1
            body = lines[at + 1:end]
            steps = {found[1] for found in (re.match(r"\s*(\w+) [+-]= (?:1|8|width \+ width);", it) for it in body) if found}
            steps |= {found[1] for found in (re.match(r"\s*(\w+) = (?:place|known) [+-] 1;", it) for it in body) if found}
            used = head[3] or "\n".join(body)
            if any(re.search(rf"\b{step}\b", used) for step in steps):
                yield f"{path}:{at + 1} {text.strip()}"


def by_hand():
    for path, name, parameters, result, top, body, line in all_functions():
        text = re.sub(r"\s+", " ", without_comments(body)).strip()
        if re.fullmatch(r"\w+ as \w+", text) and "self" not in parameters:
            yield f"{path}:{line} fn {name}: a conversion"
        elif re.fullmatch(r"if (\w+) < (\w+) \{ (\1|\2|0) \} else \{ (\1|\2|\1 - \2) \}", text) or re.fullmatch(r"if (\w+) == 0 \{ return 0; \} \1 - 1", text):
            yield f"{path}:{line} fn {name}: min, max or a difference that stops at 0"
        elif name != "from" and re.fullmatch(r"match \w+ \{( \w+::\w+ => (\d+|\w+::\w+),)+ \}", text):
            yield f"{path}:{line} fn {name}: a conversion of variants"
        elif re.fullmatch(r"if let \w+::\w+ = \w+ \{ true \} else \{ false \}", text):
            yield f"{path}:{line} fn {name}: an equality"
        elif re.search(r"while .*\{ .*?\[.*\] = (0|0\.0); \w+ \+= 1; \}", text):
            yield f"{path}:{line} fn {name}: a fill"
        elif re.search(r"while .*\[.*\] != .*\{ return false; \}|while .* = \w+ & \(\w+\[\w+\] == \w+\[\w+\]\)", text):
            yield f"{path}:{line} fn {name}: an equality"
        elif re.search(r"if (\w+) < \w+\.len\(\) \{ (return )?\w+\[\1\];? \}( else \{)? 0", text):
            yield f"{path}:{line} fn {name}: an element or 0"
        elif re.search(r"(\w+)\[\w+ \+ i\] = \w+\[i\]|\[i\] = \w+\[.*\+ i\]", text):
            yield f"{path}:{line} fn {name}: a copy"


def shared_facts():
    facts = collections.defaultdict(list)
    for path, name, parameters, result, top, body, line in all_functions():
        for clause in re.findall(r"requires(?: \w+)? \{ (.*) \}", top):
            facts[path, clause].append(f"{path}:{line} fn {name}: {clause}")
    for members in facts.values():
        if len(members) > 2:
            yield from members
    groups = collections.Counter()
    lists = []
    for path, name, parameters, result, top, body, line in all_functions():
        words = re.findall(r"(\w+): (&[^,]*)", parameters)
        names = [word for word, kind in words if "[" in kind and "mut" not in kind]
        scenes = [word for word in names if word + "_records" in names or word == "text" and "records" in names]
        if scenes:
            lists.append((f"{path}:{line} fn {name}: {', '.join(scenes)} with records", len(scenes)))
    yield from (text for text, many in lists)


def buffers():
    for path in sorted(glob.glob("crates/*/src/*.rt")):
        for number, text in enumerate(open(path, encoding="utf-8"), 1):
            if re.search(r"struct \w+\(pub \[u8; \d+\], pub usize\)", text):
                yield f"{path}:{number} {text.strip()}"
    for path, name, parameters, result, top, body, line in all_functions():
        if re.search(r"\brecords: &(?:mut )?\[u32\]", parameters) and re.search(r"\bcount: usize", parameters):
            yield f"{path}:{line} fn {name}: records, and how many of them"


def switches():
    for path, name, parameters, result, top, body, line in all_functions():
        for word in re.findall(r"(\w+): bool", parameters):
            if re.search(rf"\bif !?{word}\b|!= {word}\b", body):
                yield f"{path}:{line} fn {name}: {word}"


def proofs():
    for path in sorted(glob.glob("crates/*/proofs/**/Answers.antt", recursive=True)):
        yield path


POINTS = (
    ("1", "own Options and Results, flags beside values", absent_values),
    ("1n", "numbers for kinds and refusals", number_codes),
    ("2", "functions of one shape", twins),
    ("3", "loops that count by hand", counted_loops),
    ("4", "equality, copies and conversions by hand", by_hand),
    ("5", "facts in three contracts or more, a scene's parts side by side", shared_facts),
    ("6", "a buffer with its length, a table with how much of it is used", buffers),
    ("7", "parameters that choose a step", switches),
    ("8", "files of answers", proofs),
)
for key, what, places in POINTS:
    found = list(places())
    if len(sys.argv) > 1:
        if sys.argv[1] == key:
            print("\n".join(found))
    else:
        print(f"{key:3} {what}: {len(found)}")
