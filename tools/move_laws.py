#!/usr/bin/env python3
"""Moves theorems from specs/ to proofs/, where a must-fail edit of a definition can meet them: files named ..Laws.antt, and those of MORE.

usage: move_laws.py [FOLDER]

Paths Rattle.CRATE.specs.FILE turn to Rattle.CRATE.proofs.FILE everywhere, and `file:` lines of must-fail edits with them. `numbers` keeps its laws
where they are: it has no edit, and definitions of other crates name its word Decides. A second run changes nothing.
"""
import os
import re
import sys

MORE = {"front": ["Front", "Replanned"], "checker": ["OwnPlans"], "replan": ["AsEver"]}
STAY = {"numbers"}


def files(top):
    for root, folders, names in os.walk(os.path.join(top, "crates")):
        folders[:] = sorted(f for f in folders if f not in ("out", "target"))
        for name in sorted(names):
            if name.endswith((".antt", ".rt", ".edit")):
                yield os.path.join(root, name)


def add_mods(path, mods):
    text = open(path, encoding="utf-8").read() if os.path.exists(path) else ""
    lines = [line for line in text.split("\n") if line.strip()]
    lines += ["pub mod " + mod for mod in mods if "pub mod " + mod not in lines and "mod " + mod not in lines]
    open(path, "w", encoding="utf-8").write("\n".join(lines) + "\n")


def main():
    top = sys.argv[1] if len(sys.argv) > 1 else "."
    moved = []
    for crate in sorted(os.listdir(os.path.join(top, "crates"))):
        specs = os.path.join(top, "crates", crate, "specs")
        if crate in STAY or not os.path.isdir(specs):
            continue
        lib = os.path.join(specs, "Lib.antt")
        listed = open(lib, encoding="utf-8").read().split("\n")
        order = [m[1] for m in (re.match(r"(?:pub )?mod (\S+)", line) for line in listed) if m]
        mods = [m for m in order if m.endswith("Laws") or m in MORE.get(crate, [])]
        if not mods:
            continue
        proofs = os.path.join(top, "crates", crate, "proofs")
        os.makedirs(proofs, exist_ok=True)
        for mod in mods:
            os.rename(os.path.join(specs, mod + ".antt"), os.path.join(proofs, mod + ".antt"))
            moved.append((crate, mod))
        rest = [line for line in listed if not re.match(r"(?:pub )?mod (%s)$" % "|".join(mods), line)]
        open(lib, "w", encoding="utf-8").write("\n".join(rest))
        add_mods(os.path.join(proofs, "Lib.antt"), mods)
    if not moved:
        print("nothing to move")
        return
    path = re.compile(r"(Rattle\.)(%s)(?!\w)" % "|".join(re.escape(c + ".specs." + m) for c, m in sorted(moved, key=lambda x: -len(x[1]))))
    for f in files(top):
        text = open(f, encoding="utf-8").read()
        new = path.sub(lambda m: m[1] + m[2].replace(".specs.", ".proofs."), text)
        crate = os.path.relpath(f, os.path.join(top, "crates")).split(os.sep)[0]
        if f.endswith(".edit"):
            new = re.sub(r"^file: specs/(\S+)\.antt$", lambda m: "file: proofs/%s.antt" % m[1] if (crate, m[1]) in moved else m[0], new, flags=re.M)
        if new != text:
            open(f, "w", encoding="utf-8").write(new)
    print(len(moved), "files moved")


main()
