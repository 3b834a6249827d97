#!/usr/bin/env python3
"""Respells this repository's own definitions and lemmas as today's Rattle writes names: words in snake case.

usage: respell.py [--check] [FOLDER]

FOLDER (default: where it runs) has crates/. port.py has run there. A name that a file of specs/, or a lemma file of proofs/, declares turns
everywhere in .antt files, and in clauses, ghost items and comments' code spans of .rt files: `empty-trains` to `empty_trains`, `sheetOf` to
`sheet_of`. Types, modules and constructors stay as they are, and so do names that Rattle makes for a proof and names of std. Names that would
fall together are refused. --check writes nothing, --table prints the names. A second run writes nothing more.
"""
import collections
import glob
import os
import re
import sys

WORD = re.compile(r"[^\s(){}.;,@\"«»\[\]⟨⟩]+")
SPECIAL = {  # old name: new name, where the plain rule would make two names one
    "arrival-behind": "arrival_is_behind",
    "by-windows": "in_windows_form",
    "cause-in": "cause_in_is",
    "few-windows": "windows_few",
    "in-range": "within_range",
    "inOrder": "is_in_order",
    "listing-of": "listing_with",
    "order-in-range": "decides_order_in_range",
    "pair-of": "pair_told",
    "paths-in-order": "decides_paths_in_order",
    "paths-in-range": "decides_paths_in_range",
    "some-window": "decides_some_window",
    "window-in-range": "decides_window_in_range",
    # types in camel case, a value that began like a type, and two modules' short names
    "B-first": "b_first",
    "Ended-so": "end_is_so",
    "Last-values": "LastValues",
    "Settled-at": "SettledAt",
    "Settled-above": "SettledAbove",
    "gone-rounds": "gone_rounds",
    "last-rounds": "last_rounds",
    # names that an import gives
    "by-round": "by_round",
    "chosen-from": "chosen_from",
    "departures-of": "departures_of",
    "from-sheet-alone": "from_sheet_alone",
    "is-schedule-of": "is_schedule_of",
    "listed-from": "listed_from",
    "times-of": "times_of",
    "went-well-of": "went_well_of",
}
KEEP = set()


def snake(name):
    head = name[0]
    if head.isascii() and head.isupper():
        return name.replace("-", "_") if "-" in name else name
    parts = []
    for part in name.split("-"):
        part = re.sub(r"(?<=[a-z0-9])([A-Z])", lambda m: "_" + m[1].lower(), part)
        parts.append(part)
    return "_".join(parts)


def files(top):
    for root, folders, names in os.walk(os.path.join(top, "crates")):
        folders[:] = sorted(f for f in folders if f not in ("out", "target"))
        for name in sorted(names):
            if name.endswith((".antt", ".rt")):
                yield os.path.join(root, name)


def code_of(line):
    return re.split(r"(?<![^\s(){}.;,@\"«»])--", line)[0]


def is_home(path):
    """A file whose declarations are the repository's own: specs/, and lemma files that lie right in proofs/."""
    parts = path.split(os.sep)
    return "specs" in parts or parts[-2] == "proofs"


DECL = re.compile(r"^(\s*)(?:(?:abbrev|unfoldable|pub|opaque|instance|constructor|irreducible|mutual|ruleset)\s+)*([^\s(){}.;,@\"«»:=]+)((?:\s+[^\s(){}.;,@\"«»:=]+)*?)\s*:(?:\s|$)")
FIELD = re.compile(r"(?:^|[;{])\s*(?:pub\s+)?([^\s(){}.;,@\"«»:=]+)((?:\s+[^\s(){}.;,@\"«»:=]+)*)\s*:(?=\s)")
RULES = re.compile(r"^\s*(?:pub\s+)?ruleset\s+([^\s(){}.;,@\"«»:=]+)")
DEFINED = re.compile(r"^\s*([^\s(){}.;,@\"«»:=]+)\s")


def declared(top):
    own, foreign = set(), set()
    for path in files(top):
        if not path.endswith(".antt"):
            continue
        text = open(path, encoding="utf-8").read()
        code = "\n".join(code_of(line) for line in text.split("\n"))
        for m in re.finditer(r"use\s+([^\s{};]+?)\.\{([^}]*)\}", code):
            outside = not m[1].startswith("Rattle.") or m[1].split(".")[1] == "std"
            if outside:
                for item in m[2].split(","):
                    foreign.add(item.split(" as ")[0].strip())
        if not is_home(path):
            continue
        for line in code.split("\n"):
            if line.lstrip().startswith("use "):
                continue
            for pattern in (DECL, FIELD):
                for m in pattern.finditer(line):
                    group = m.groups()
                    names = [group[1]] + group[2].split() if pattern is DECL else [group[0]] + group[1].split()
                    own.update(names)
            m = RULES.match(line)
            if m:
                own.add(m[1])
        # bound variables turn with the names: λ x. , let x = , and arguments of clauses
        for m in re.finditer(r"λ\s+([^.]*)\.", code):
            own.update(WORD.findall(m[1]))
        for line in code.split("\n"):
            m = re.match(r"^\s*((?:[^\s=:\"«»]+\s+)+)=(?:\s|$)", line)
            if m:
                own.update(WORD.findall(m[1]))
        for m in re.finditer(r"(?:let|where|;)\s+([^\s(){}.;,@\"«»:=]+)\s*[:=](?=\s)", code):
            own.add(m[1])
        for m in re.finditer(r"[({]\s*((?:[^\s(){}.;,@\"«»:=]+\s+)+):\s", code):
            own.update(m[1].split())
    return own, foreign


def table_of(top):
    own, foreign = declared(top)
    table = dict(SPECIAL)
    for name in own:
        if name in foreign or name in KEEP or not re.search(r"[A-Za-zα-ωℤℕ]", name):
            continue
        if "'" in name and name.strip("'") == "":
            continue
        new = SPECIAL.get(name, snake(name))
        if new != name and "-" in name and not re.search(r"[A-Za-z0-9α-ωℤℕ≤<≡'◌+*]-[A-Za-z0-9α-ωℤℕ≤<≡'◌+*]", name):
            continue
        if new != name:
            table[name] = new
    return table, own, foreign


CLAUSE = re.compile(r"(?:requires|ensures)\s*\*?\s*(?:\w+\s*)?\{|ghost\s*(?:\w+\s*(?::\s*(?:(?:owns|lends)\s*)?|=\s*))?\{|ghost\s+use\b")


def turn(text, table, aliases=()):
    """Each word of the table turns, but not behind the short name of a module of std."""

    def one(m):
        behind = re.search(r"([^\s(){}.;,@\"«»\[\]⟨⟩]+)\.$", text[max(0, m.start() - 60) : m.start()])
        if behind and behind[1] in aliases:
            return m[0]
        return table.get(m[0], m[0])

    return WORD.sub(one, text)


def aliases_of(text):
    found = re.findall(r"use\s+(\S+)\s+as\s+([^\s;]+)", text)
    return {short for path, short in found if not path.startswith("Rattle.") or path.split(".")[1] == "std"}


def turn_antt(text, table):
    aliases = aliases_of(text)
    lines = []
    for line in text.split("\n"):
        code = code_of(line)
        rest = line[len(code):]
        rest = re.sub(r"`[^`]*`", lambda m: "`" + turn(m[0][1:-1], table) + "`", rest)
        lines.append(turn(code, table, aliases) + rest)
    return "\n".join(lines)


def turn_rt(text, table):
    out, i = [], 0
    while True:
        m = CLAUSE.search(text, i)
        if not m:
            out.append(text[i:])
            break
        out.append(text[i:m.start()])
        if m[0].endswith("{"):
            depth, j = 1, m.end()
            while depth:
                depth += {"{": 1, "}": -1}.get(text[j], 0)
                j += 1
        else:
            j = text.index(";", m.end()) + 1
        out.append(turn(text[m.start():j], table))
        i = j
    text = "".join(out)
    lines = []
    for line in text.split("\n"):
        at = line.find("//")
        if at >= 0:
            line = line[:at] + re.sub(r"`[^`]*`", lambda m: "`" + turn(m[0][1:-1], table) + "`", line[at:])
        lines.append(line)
    return "\n".join(lines)


def main():
    args = [a for a in sys.argv[1:] if not a.startswith("--")]
    top = args[0] if args else "."
    check = "--check" in sys.argv
    table, own, foreign = table_of(top)
    back = collections.defaultdict(set)
    for old, new in table.items():
        back[new].add(old)
    clashes = 0
    for new, olds in sorted(back.items()):
        if len(olds) > 1 or new in own or new in foreign:
            print("falls together:", new, sorted(olds), "own" if new in own else "", "foreign" if new in foreign else "")
            clashes += 1
    changed = 0
    for path in files(top):
        text = open(path, encoding="utf-8").read()
        new = turn_antt(text, table) if path.endswith(".antt") else turn_rt(text, table)
        if new != text:
            changed += 1
            if not check:
                open(path, "w", encoding="utf-8").write(new)
    print(len(table), "names,", changed, "files,", clashes, "clashes")
    if "--table" in sys.argv:
        for old, new in sorted(table.items()):
            print(old, new, sep="\t")


main()
