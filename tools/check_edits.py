#!/usr/bin/env python3
"""Says which must-fail edits cannot be applied: each `old:` text has to stand exactly once in its file, after the replacements before it.

    python3 tools/check_edits.py

`rt must-fail` says so too, but only after the proofs; this takes no time.
"""
import glob
import os

TOP = os.path.dirname(os.path.dirname(os.path.abspath(__file__)))


def fault(edit):
    """Says what is wrong with an edit, or an empty text where nothing is."""
    crate = os.path.dirname(os.path.dirname(edit))
    texts, path, old, pairs = {}, None, None, 0
    for line in open(edit, encoding="utf-8").read().splitlines():
        kind, _, rest = line.partition(":")
        if kind == "file":
            path = f"{crate}/{rest.strip()}"
        elif kind == "old":
            old = rest[1:]
        elif kind == "new":
            if path not in texts:
                if not path or not os.path.isfile(path):
                    return f"no file {path}"
                texts[path] = open(path, encoding="utf-8").read()
            if not old or texts[path].count(old) != 1:
                return f"{texts[path].count(old) if old else 'no'} times: {old}"
            texts[path] = texts[path].replace(old, rest.removeprefix(" "))
            old, pairs = None, pairs + 1
    return "" if pairs else "no replacement"


def main():
    edits = sorted(glob.glob(f"{TOP}/crates/*/must-fail/*.edit"))
    faults = [(edit, why) for edit in edits if (why := fault(edit))]
    for edit, why in faults:
        print(os.path.relpath(edit, TOP), why)
    print(len(edits), "edits,", len(faults), "that cannot be applied")
    raise SystemExit(bool(faults))


if __name__ == "__main__":
    main()
