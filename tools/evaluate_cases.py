#!/usr/bin/env python3
"""Evaluates the definitions of crate `spec` on a folder of sample sheets and copyings, by the checker itself.

    python3 tools/evaluate_cases.py FOLDER [NAME ...]

FOLDER has NAME.sheet with the answers NAME.kit, NAME.types, NAME.search and NAME.rotations, and NAME.copytext with NAME.copy. Each
answer becomes a closed example, `call sheet .. ≡ answer` by `refl`, in a temporary repository beside a copy of crate `spec`. For each
answer the tool prints `agrees`, `DIFFERS`, or `too long`, which means that antt stopped the evaluation at 50 million steps or that it took
300 seconds. The exit status is 0 where every answer agrees, 1 where one differs, and 2 where none differs and one was too long.
"""
import os
import re
import shutil
import subprocess
import sys
import tempfile

TOP = os.path.dirname(os.path.dirname(os.path.abspath(__file__)))

HEADER = """use Rattle.std.specs.Prelude.{◌≡◌, refl, ℕ, List, [], ◌∷◌, ◌++◌, map, replicate, Float, Ok}
use Rattle.std.specs.Float.{binary64}
use Rattle.std.specs.Float.Ieee.{of_bits, to_bits}
use Rattle.spec.specs.declared.Refusal.{Refusal}
use Rattle.spec.specs.declared.Refusal.TheVariants.{CutSheet, Format, OffTheBoard, BadList, Loose, Mitre, Bench, NotFull, DoubleCorner, Centred, Flat, Blank, ShortSheet, Open, Unsettled}
use Rattle.spec.specs.Refusal.{Answer, refused_with}
use Rattle.spec.specs.Ascii.{ascii}
use Rattle.spec.specs.Calls.{TypesOut, types_call, SearchOut, search_call, rotations_call}
use Rattle.spec.specs.Copying.{copy_call}
use Rattle.spec.specs.KitText.{kit_text}
use Rattle.spec.specs.Eval.{evaluate}
use Rattle.spec.specs.NumberExamples.{all}

shown : Answer × SearchOut → Answer × List ℕ × List ℕ × List ℕ
shown x = (x.0, map (to_bits binary64) x.1.matrices, x.1.rows, x.1.marks)

copied : Answer × List Float × List ℕ → Answer × List ℕ × List ℕ
copied x = (x.0, map (to_bits binary64) x.1, x.2)

vec : List ℕ → List Float
vec l = map (of_bits binary64) l

"""
WORDS = ["", "CutSheet", "Format", "OffTheBoard", "BadList", "Loose", "Mitre", "Bench", "NotFull", "DoubleCorner", "Centred", "Flat",
         "Blank", "ShortSheet", "Open", "Unsettled"]


def lst(xs):
    xs = [str(x) for x in xs]
    lines, line = [], ""
    for x in xs:
        line += x + " ∷ "
        if len(line) > 110:
            lines.append(line)
            line = ""
    lines.append(line + "[]")
    return "(" + "\n    ".join(lines) + ")"


def lines_of(path):
    return open(path, encoding="utf-8").read().splitlines()


def refused(lines):
    m = re.match(r"refused (\d+)", lines[0]) if lines else None
    return WORDS[int(m.group(1))] if m else None


def kit(folder, name, sheet):
    text = open(f"{folder}/{name}.kit", encoding="utf-8").read()
    quoted = text.replace("\\", "\\\\").replace('"', '\\"').replace("\n", "\\n")
    return f'kit_text {sheet} ≡ ascii "{quoted}"', "evaluate"


def types(folder, name, sheet):
    lines = lines_of(f"{folder}/{name}.types")
    why = refused(lines)
    if why:
        out = "record { elements = []; types = [] }"
        return f"types_call {sheet} 1000000 1000000 ({out}) ≡ (refused_with {why} 0, {out})", "evaluate"
    n = int(lines[0].split()[1])
    cells = [c for l in lines[1:1 + n] for c in l.split()]
    elements = [c for l in lines[1 + n:] for c in l.split(":")[1].split()]
    old = f"record {{ elements = replicate {len(elements)} 7; types = replicate {len(cells)} 7 }}"
    new = f"record {{ elements = {lst(elements)}; types = {lst(cells)} }}"
    return f"types_call {sheet} 1000000 1000000 ({old}) ≡ (Ok {n}, {new})", "evaluate"


def search(folder, name, sheet, call, ending):
    lines = lines_of(f"{folder}/{name}.{ending}")
    why = refused(lines)
    if why:
        return f"shown ({call} {sheet} 1000000 1000000 (record {{ matrices = []; rows = []; marks = [] }})) ≡ (refused_with {why} 0, [], [], [])", "evaluate shown"
    floats, rows, marks = [], [], []
    for l in lines:
        m = re.match(r"member (.*) \| row (.*) \| mark (\d)", l)
        if m:
            floats += ["0x" + h for h in m.group(1).split()]
            rows += m.group(2).split()
            marks.append(m.group(3))
    old = f"record {{ matrices = replicate {len(floats)} (of_bits binary64 0); rows = replicate {len(rows)} 7; marks = replicate {len(marks)} 7 }}"
    return f"shown ({call} {sheet} 1000000 1000000 ({old})) ≡ (Ok {len(marks)}, {lst(floats)}, {lst(rows)}, {lst(marks)})", "evaluate shown"


def copy(folder, name):
    given = lines_of(f"{folder}/{name}.copytext")
    d, floats, cells = given[0].split()
    points, turns = (["0x" + h for h in l.split()] for l in (given + ["", ""])[1:3])
    answer = lines_of(f"{folder}/{name}.copy")
    why = refused(answer)
    copies = ["0x" + h for l in answer if l.startswith("copy ") for h in l.split()[1:]]
    table = [c for l in answer if l.startswith("row ") for c in l.split()[1:]]
    n = len(copies) // int(d) if int(d) else 0
    # Ample outputs are lent as only a few cells more than the answer fills, so that the evaluation stays short.
    floats = min(int(floats), len(copies) + 4)
    cells = min(int(cells), len(table) + 4)
    call = f"copied (copy_call {d} (vec {lst(points)}) (vec {lst(turns)}) (replicate {floats} (of_bits binary64 0)) (replicate {cells} 7))"
    got = f"refused_with {why} {n}" if why else f"Ok {n}"
    new = f"{lst(copies)} ++ replicate {floats - len(copies)} 0"
    return f"{call} ≡ ({got}, {new}, {lst(table)} ++ replicate {cells - len(table)} 7)", "all copied vec"


def main():
    folder, only = sys.argv[1], sys.argv[2:]
    work = tempfile.mkdtemp()
    shutil.copytree(f"{TOP}/crates/spec", f"{work}/crates/spec", ignore=shutil.ignore_patterns("must-fail"))
    cases = []
    for f in sorted(os.listdir(folder)):
        name, ending = os.path.splitext(f)
        if only and name not in only:
            continue
        if ending == ".sheet":
            sheet = lst(open(f"{folder}/{f}", "rb").read())
            cases += [(f"{name}.kit", kit(folder, name, sheet))] if os.path.exists(f"{folder}/{name}.kit") else []
            cases += [(f"{name}.types", types(folder, name, sheet))] if os.path.exists(f"{folder}/{name}.types") else []
            for call, e in (("search_call", "search"), ("rotations_call", "rotations")):
                cases += [(f"{name}.{e}", search(folder, name, sheet, call, e))] if os.path.exists(f"{folder}/{name}.{e}") else []
        elif ending == ".copytext" and os.path.exists(f"{folder}/{name}.copy"):
            cases.append((f"{name}.copy", copy(folder, name)))
    bad = long = 0
    crate = f"{work}/crates/one"
    os.makedirs(f"{crate}/src")
    os.makedirs(f"{crate}/specs")
    open(f"{work}/crates.txt", "w").write("spec:\none: spec\n")
    open(f"{crate}/src/lib.rt", "w").write("// Nothing is to run.\n#![tactic(auto)]\n")
    open(f"{crate}/specs/Lib.antt", "w").write("pub mod One\n")
    for label, (statement, opened) in cases:
        open(f"{crate}/specs/One.antt", "w", encoding="utf-8").write(f"{HEADER}one : {statement}\nunfolding {opened}\none = refl\n")
        try:
            r = subprocess.run(["rt", "check"], cwd=crate, capture_output=True, text=True, timeout=300)
            text = r.stdout + r.stderr
            # Only the evaluation's own limit counts as too long. Any other refusal is a difference.
            verdict = "agrees" if r.returncode == 0 else "too long" if "stopped at the step limit" in text else "DIFFERS"
            if verdict == "DIFFERS":
                bad += 1
                print(text[-600:])
        except subprocess.TimeoutExpired:
            verdict = "too long"
        long += verdict == "too long"
        print(f"{label}: {verdict}", flush=True)
    shutil.rmtree(work)
    return 1 if bad else 2 if long else 0


if __name__ == "__main__":
    sys.exit(main())
