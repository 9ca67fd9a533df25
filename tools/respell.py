#!/usr/bin/env python3
"""Respells this repository's own names: words in snake case, with a dash only between two names.

    python3 tools/respell.py [--names]

The toolchain's own script respells the names that its library shares with this repository. This one takes the definitions and lemmas that are left,
in the specs/ and proofs/ of every crate: `firstFar` becomes `first_far`, and `parts-join` becomes `parts_join`; `length-join` keeps its dash, since
`length` and `join` are definitions both. Names from the library, names that Rust sources have, types and facts keep theirs. It also respells the
names where contracts, must-fail edits and documents cite them. A name that would fall together with another one stays as it is, and is reported.
With --names nothing is written, and the pairs of names are printed. It was run once (docs/PORT.md), on the tree that the toolchain's script left, and
is not to be run again: the names that it gave would be taken for old ones.
"""
import glob
import os
import re
import sys

TOP = os.path.dirname(os.path.dirname(os.path.abspath(__file__)))
RUN = re.compile(r"[^\s(){}\[\],;.\"«»@`]+")
HEAD = re.compile(r"^\s*((?:abbrev |unfoldable |pub )*)([^\s(){}:;,λ=.\"]+(?: [^\s(){}:;,λ=.\"]+)*) :(?=\s)")
USE = re.compile(r"^\s*(?:pub |ghost )*use ([\w.'+-]+?)\.\{([^}]*)\}")
LIST_WORDS = {"length", "take", "drop", "set", "append", "map", "get_or", "filter", "range", "min", "max", "add", "sub", "mul", "zero", "one", "suc",
              "leb", "ltb", "eqb", "nat_eq", "repeat", "sum", "cons", "le", "lt", "pow", "div", "mod", "zip", "concat", "snoc", "splice", "fits", "bit_and",
              "bit_or", "fields", "of_bits"}
# Names that the toolchain's script took apart at a capital that ended a name of the library.
MENDED = {"get_d_map": "get_or-map"}
# Lemmas that have the spelling already, and whose name their definition now gets.
LEMMAS = ("by_rank", "first_to", "floats_at", "in_order", "kept_in", "list_at", "with_entries")
MENDED.update({name: name + "_lem" for name in LEMMAS})
# (lists_at is a field as well, so that the lemma is told by its arguments)
LISTS_AT = re.compile(r"(?<![.\w])lists_at(?= c | : \(c)")


def read(path):
    with open(path, encoding="utf-8") as f:
        return f.read()


def snake(atom):
    """`firstFar` as `first_far`; a capital at the head is a type's or a fact's, and a lone capital behind a letter is a variable's."""
    if not re.match(r"[a-z_]", atom) or len(atom) <= 2:
        return atom
    return re.sub(r"(?<=[a-z0-9])([A-Z])(?=[a-z0-9]|$)", lambda m: "_" + m[1].lower(), re.sub(r"(?<=[a-z0-9])([A-Z])(?=[A-Z])", lambda m: "_" + m[1].lower(), atom))


def main():
    crates = sorted(os.path.basename(os.path.dirname(p)) for p in glob.glob(f"{TOP}/crates/*/src"))
    antt = sorted(glob.glob(f"{TOP}/crates/*/specs/**/*.antt", recursive=True) + glob.glob(f"{TOP}/crates/*/proofs/**/*.antt", recursive=True))
    own, words, foreign = set(), set(LIST_WORDS), set()
    for path in antt:
        text = read(path)
        walk = os.path.basename(path) == "Proof.antt"
        for line in text.splitlines():
            use = USE.match(line)
            if use:
                if not re.match(rf"Rattle\.({'|'.join(crates)})\.", use[1] + "."):
                    foreign |= {re.sub(r" as .*", "", it).strip() for it in use[2].split(",")}
                continue
            if line.lstrip().startswith("--"):
                continue
            head = HEAD.match(line)
            if head and not walk:
                names = head[2].split(" ")
                own |= set(names)
                if "unfoldable" in head[1] or "abbrev" in head[1]:
                    words |= set(names)
    for path in sorted(glob.glob(f"{TOP}/crates/*/src/**/*.rt", recursive=True)):
        words |= set(re.findall(r"\bfn (\w+)", read(path)))
    words |= {snake(w) for w in words}
    table, kept = dict(MENDED), []
    for name in sorted(own - foreign):
        atoms = [snake(a) for a in name.split("-")]
        new = atoms[0]
        for before, after in zip(atoms, atoms[1:]):
            new += ("-" if before in words and after in words else "_") + after
        if new != name and atoms[0] and atoms[-1]:
            table[name] = new
    # Where two names fall together, the definition has the name and the lemma, which has a dash, gets `_lem` behind it.
    taken = (own - set(table) - {"lists_at"}) | foreign
    for name in sorted(set(table) - set(MENDED), key=lambda n: ("-" in n, n)):
        new = table[name]
        if new in taken and "-" in name:
            new += "_lem"
        if new in taken:
            kept.append((name, new))
            del table[name]
        else:
            table[name] = new
            taken.add(new)
    for name, new in kept:
        print(f"kept: {name}, since {new} is taken")
    if "--names" in sys.argv:
        for name, new in sorted(table.items()):
            print(f"{name} -> {new}")
        return
    camel = {n for n in table if not "-" in n}
    code = lambda t: RUN.sub(lambda m: table.get(m[0], m[0]), t)
    said = re.compile(r"(?<![\w'-])(" + "|".join(sorted(map(re.escape, camel), key=len, reverse=True)) + r")(?![\w'-])")
    prose = lambda t: re.sub(r"`[^`\n]*`", lambda m: code(m[0]), said.sub(lambda m: table[m[1]], t))
    changed = 0
    for path in antt + sorted(glob.glob(f"{TOP}/crates/*/src/**/*.rt", recursive=True)):
        mark = "--" if path.endswith(".antt") else "//"
        text, out = read(path), []
        if path.endswith("laws/proofs/Accepted.antt"):
            text = LISTS_AT.sub("lists_at_lem", text)
        walk = os.path.basename(path) == "Proof.antt"
        for line in text.split("\n"):
            at = re.search(rf"(?:^|\s){mark}", line)
            cut = at.end() - 2 if at else len(line)
            body = line[:cut]
            if walk:
                body = RUN.sub(lambda m: table.get(m[0], m[0]) if body[m.start() - 1:m.start()] != "." or m[0] in camel else m[0], body)
            else:
                body = code(body)
            out.append(body + prose(line[cut:]))
        new = "\n".join(out)
        if new != text:
            changed += 1
            with open(path, "w", encoding="utf-8") as f:
                f.write(new)
    for path in sorted(glob.glob(f"{TOP}/crates/*/must-fail/*.edit")):
        text = read(path)
        new = code(text)
        if new != text:
            changed += 1
            with open(path, "w", encoding="utf-8") as f:
                f.write(new)
    for path in [f"{TOP}/README.md"] + sorted(glob.glob(f"{TOP}/docs/*.md")):
        text = read(path)
        new = prose(text)
        if new != text:
            changed += 1
            with open(path, "w", encoding="utf-8") as f:
                f.write(new)
    print(f"{len(table)} names respelled, {len(kept)} kept, {changed} files changed")


if __name__ == "__main__":
    main()
