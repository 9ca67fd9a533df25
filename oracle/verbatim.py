#!/usr/bin/env python3
"""verbatim.py FOLDER: what in src/ isn't the original's text. FOLDER holds the
nine files as miratope-core/src/*.rs, or flat as src--miratope-core--src--*.rs.txt.
For each file prints the lines added (+) and, with -v, those dropped (-)."""
import difflib
import os
import sys

HERE = os.path.dirname(os.path.abspath(__file__))
FILES = ["abs/flag", "abs/mod", "abs/ranked", "conc/element_types", "conc/mod",
         "conc/symmetry", "float", "geometry", "group/mod"]

for name in FILES:
    seed = os.path.join(sys.argv[1], "miratope-core", "src", name + ".rs")
    if not os.path.exists(seed):
        seed = os.path.join(sys.argv[1], "src--miratope-core--src--" + name.replace("/", "--") + ".rs.txt")
    with open(seed) as file:
        old = file.read().splitlines()
    with open(os.path.join(HERE, "src", name + ".rs")) as file:
        new = file.read().splitlines()
    added = dropped = 0
    print("==", name)
    for line in difflib.unified_diff(old, new, n=0):
        if line.startswith(("---", "+++")):
            continue
        if line.startswith("+"):
            added += 1
            print("+" + line[1:].rstrip())
        elif line.startswith("-"):
            dropped += 1
            if "-v" in sys.argv:
                print("-" + line[1:].rstrip())
    print("   of %d lines %d added, %d dropped" % (len(old), added, dropped))
