#!/usr/bin/env python3
"""Whether the definitions of the crates scene, index and sides and the reader of tools/scene.py agree, on texts made from a seed.

    tools/check-definitions.py [COUNT [SEED]]

Each text becomes a row that the prover computes: the answer's four numbers, the report of entries looked at, the records, the bits
of the reals, each used entry of the index with its place, and the pairs. The rows are written to a copy of the repository in a temporary folder, since computing them takes longer than the gate should. Needs rt."""
import collections
import pathlib
import re
import shutil
import subprocess
import sys
import tempfile

import scene
import texts

TOP = pathlib.Path(__file__).resolve().parent.parent
OTHERS = "samples|bits|comparison|content|keys"  # crates that the samples use and a reading does not


def expected(archive, text, records, reals):
    table, doubles = scene.read(archive, text, records, reals)
    if isinstance(table, int):
        return [table, doubles, 0, 0, 0]
    index, looked = scene.index_of(text, table)
    used = [n for entry, number in enumerate(index) if number for n in (entry, number)]
    pairs = [side for pair in scene.pairs_of(text, table) for side in pair]
    return [0, 0, len(table), len(doubles), looked] + [n for r in table for n in r] + doubles + used + pairs


def numbers(ns):
    return "(" + "".join("%d ∷ " % n for n in ns) + "[])"


count = int(sys.argv[1]) if len(sys.argv) > 1 else 400
seed = int(sys.argv[2]) if len(sys.argv) > 2 else 1
opened = (TOP / "crates/samples/proofs/SampleLaws.antt").read_text()
uses = [line for line in opened.split("\n") if line.startswith("use ") and not re.search(r"Rattle\.\w+\.proofs\.|Rattle\.(%s)\." % OTHERS, line)]
names = [line[len("unfolding ") :] for line in opened.split("\n") if line.startswith("unfolding ")][:2]
rows, reasons = [], collections.Counter()
for k, (archive, text, records, reals) in enumerate(texts.texts(seed, count, 3)):
    right = expected(archive, text, records, reals)
    reasons[right[0]] += 1
    rows.append(
        "row%d : facts (record { mode = %s; records = %d; reals = %d }) %s ≡ %s\nunfolding facts everything\nrow%d = refl\n"
        % (k, "Archive" if archive else "New", records, reals, numbers(text), numbers(right), k)
    )
with tempfile.TemporaryDirectory() as folder:
    copy = pathlib.Path(folder, "copy")
    shutil.copytree(TOP, copy, ignore=shutil.ignore_patterns("target", "out", ".git"))
    crate = copy / "crates" / "rows"
    for part in ("src", "specs"):
        (crate / part).mkdir(parents=True)
    (crate / "src" / "lib.rt").write_text("// Rows computed from the definitions.\n#![tactic(auto)]\n")
    (crate / "specs" / "Lib.antt").write_text("pub mod Rows\n")
    head = uses + [
        "use mathlib.Core.Bool.{cond}",
        "use mathlib.Core.List.{map}",
        "use Prim.Native.Nat.{suc}",
        "use lib.Dec.{eqb}",
        "use lib.Ieee.{binary64}",
        "use Rattle.scene.specs.Record.{answer, flat, fields, newlines}",
        "use Rattle.index.specs.Index.{hash_from, index_by, passed, seek, stops}",
        "use Rattle.index.specs.Report.{all_looked, gives_no, index_image, name_no, report}",
        "use Rattle.graph.specs.Answers.{lowest, lowest_loop}",
        "use Rattle.graph.specs.Graph.{goes_from, link}",
        "use Rattle.graph.specs.Paths.{via}",
        "use Rattle.sides.specs.Read.{first_unknown, is_known, read}",
        "use Rattle.sides.specs.Sides.{from_number, pairs, pairs_from}",
    ]
    opens = " flat newlines to_bits all_looked gives_no name_no index_by hash_from passed seek stops used"
    opens += " read first_unknown is_known lowest_loop lowest via link goes_from from_number pairs pairs_from"
    everything = "everything : ℕ\nunfolding " + names[0] + " " + names[1].replace("readings ", "") + opens + "\neverything = 0\n"
    used = (
        "used : ℕ → List ℕ → List ℕ\n"
        "used k [] = []\n"
        "used k (n ∷ ns) = cond (eqb n 0) (used (suc k) ns) (k ∷ n ∷ used (suc k) ns)\n"
    )
    facts = (
        "facts : Settings → Bytes → List ℕ\n"
        "facts r t = let x = read r t in let a = answer x in a.reason ∷ a.place ∷ a.primitives ∷ a.reals ∷ report x ∷ flat t (records (entries x)) ++ map (to_bits binary64) (real_table (entries x)) ++ used 0 (index_image 2048 x) ++ pairs (statements (entries x))\n"
    )
    (crate / "specs" / "Rows.antt").write_text("\n".join(head) + "\n\n" + used + "\n" + everything + "\n" + facts + "\n" + "\n".join(rows))
    with (copy / "crates.txt").open("a") as f:
        f.write("rows: laws lexer numeral_parts numeral scene index graph sides\n")
    ran = subprocess.run(["rt", "check"], cwd=crate, capture_output=True, text=True)
out = ran.stdout + ran.stderr
differ = sorted({line.split("`")[1] for line in out.split("\n") if ": error: `row" in line})
print("%d texts, %d differ; by reason: %s" % (count, len(differ), dict(sorted(reasons.items()))))
if ran.returncode != 0:
    print("\n".join(out.split("\n")[-30:]) if not differ else " ".join(differ))
    sys.exit(1)
