#!/usr/bin/env python3
"""Brings the names of this repository's own definitions and lemmas to the library's spelling.

usage: python3 tools/respell.py [FOLDER]     once, after the kit's port.py, at the top of the repository (or of FOLDER)

Words are in snake case; a dash joins two names, and a plain word is added with `_`. Facts and types keep their capital. Functions of src/, exported
names, strings, inputs and outputs keep their names. The pages get the same names, those too that port.py turned. It stops before it writes anything
where two names would fall together.
"""

import glob
import os
import re
import sys

TOKEN = re.compile(r"[A-Za-z_ℕℤ◌][\w'ℕℤ◌₀-₉]*(?:-[\w'ℕℤ◌₀-₉]+)*", re.UNICODE)
# Words of the library that a lemma's name is put together from.
WORDS = set(
    "length get_or take drop set append replicate add sub mul div mod pos suc zero le lt leb ltb eqb cond max min sum sum_by of_z to_z least_z lt_z "
    "sub_ℕ nat_abs mag".split()
)
# What would fall together with the name of a definition: a lemma has `_lem` after that name (so have those with a dash, below), a field says what
# it holds.
APART = {
    "filled_row": "filled_row_lem",
    "from_zero": "from_zero_lem",
    "front_below": "front_below_lem",
    "read_held": "read_held_lem",
    "same_view": "same_view_lem",
    "spare-bits": "spare_stay",
    "in-range": "change_in_range",
    "texture-of": "texture_there",
    "depths-of": "depths_there",
    "marks-of": "marks_there",
}
# Names that a function of another crate has too: they are turned in this crate alone.
WITHIN = {"filled_row": "quarters", "from_zero": "reach", "front_below": "row", "read_held": "model", "same_view": "order"}


def snake(word):
    word = word.replace("getD", "get_or").replace("subℕ", "sub_ℕ")
    if re.match(r"[A-Z]", word):
        return word
    word = re.sub(r"([a-z0-9'])([A-Z])(?![A-Z]*$)", lambda m: m.group(1) + "_" + m.group(2).lower(), word)
    return re.sub(r"([a-z0-9'])([A-Z]+)", lambda m: m.group(1) + "_" + m.group(2).lower(), word)


def declared(top):
    """The names that specs/ and proofs/*.antt declare, with those of fields."""
    names = {}
    for p in sorted(glob.glob(top + "/crates/*/specs/**/*.antt", recursive=True) + glob.glob(top + "/crates/*/proofs/**/*.antt", recursive=True)):
        if "/out/" in p:
            continue
        of_function = "/proofs/" in p and os.path.dirname(p).rsplit("/", 1)[1] != "proofs"
        for line in open(p, encoding="utf-8"):
            m = re.match(r" *(?:(?:abbrev|unfoldable) )?(?:pub )?(?:(?:record|data) )?([^\s:(){}=;]+)(?: [({].*)? :", line)
            if m and not line.startswith(("--", "use ")) and not of_function:
                names.setdefault(m.group(1), set()).add(p)
    return names


def new_name(name, known):
    if name in APART:
        return APART[name]
    parts = [snake(w) for w in name.split("-")]
    out = parts[0]
    for before, after in zip(parts, parts[1:]):
        joined = (before in WORDS or "_" in before) and after in known and (after in WORDS or "_" in after or before == "length")
        out += ("-" if joined else "_") + after
    return out


def renaming(top):
    names = declared(top)
    plain = {snake(n) for n in names if "-" not in n} | WORDS
    plain |= {n for n in names if "-" not in n and re.match(r"[A-Z]", n)}
    turned = {}
    for n in sorted(set(names) | set(APART)):
        new = new_name(n, plain)
        if new != n:
            turned[n] = new
    for n in sorted(turned):
        if "-" in n and n not in APART and (turned[n] in names or turned[n] in {turned[m] for m in turned if "-" not in m}):
            turned[n] += "_lem"
    back = {}
    for n in names:
        back.setdefault(turned.get(n, n), set()).add(n)
    clashes = {new: old for new, old in back.items() if len(old) > 1}
    return turned, clashes, names


def main():
    top = sys.argv[1] if len(sys.argv) > 1 else "."
    turned, clashes, names = renaming(top)
    # A name of the code that a definition would take: a parameter, a field or a constant hides it.
    held = {}
    for p in sorted(glob.glob(top + "/crates/*/src/**/*.rt", recursive=True)):
        for i, line in enumerate(open(p, encoding="utf-8"), 1):
            for m in re.finditer(r"\b([a-z_][a-z0-9_]*): ", line):
                held.setdefault(m.group(1), []).append(f"{p}:{i}")
            for m in re.finditer(r"\b(?:let|for)(?: mut)? ([a-z_][a-z0-9_]*)\b", line):
                held.setdefault(m.group(1), []).append(f"{p}:{i}")
    hidden = {new: held[new] for new in set(turned.values()) if new in held}
    for new, old in sorted(clashes.items()):
        print(f"falls together: {new}: {' '.join(sorted(old))}")
    for new, where in sorted(hidden.items()):
        print(f"hidden by the code: {new}: {' '.join(where[:3])}")
    if clashes or "--dry" in sys.argv:
        raise SystemExit(1)
    files = []
    for pattern in ("crates/*/src/**/*.rt", "crates/*/specs/**/*.antt", "crates/*/proofs/**/*.antt", "docs/**/*.md", "README.md"):
        files += [p for p in glob.glob(os.path.join(top, pattern), recursive=True) if "/out/" not in p]

    now = {turned.get(n, n) for n in names}
    changed = 0
    for p in sorted(files):
        text = open(p, encoding="utf-8").read()

        def swap(m):
            name = m.group(0)
            new = turned.get(name, name)
            if name in WITHIN and f"/crates/{WITHIN[name]}/" not in os.path.abspath(p):
                return name
            # Behind a dot it is the step of a call, which has the function's name.
            if new.endswith("_lem") and name != "combined-row" and m.start() and m.string[m.start() - 1] == ".":
                return new[:-4]
            return new

        def named(m):
            name = swap(m)
            plain = "_".join(snake(w) for w in name.split("-"))
            return plain if name not in now and plain in now else name

        if p.endswith(".md"):
            new = re.sub(r"`[^`\n]*`", lambda m: TOKEN.sub(named, m.group(0)), text)
        else:
            new = TOKEN.sub(swap, text)
        if new != text:
            open(p, "w", encoding="utf-8").write(new)
            changed += 1
    print(f"{len(turned)} names, {changed} files")


if __name__ == "__main__":
    main()
