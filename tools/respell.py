#!/usr/bin/env python3
"""Brings the names of definitions and lemmas to one spelling: words in snake case, types and modules in camel case.

usage: tools/respell.py        at the top of the repository, once, after a commit

- specs/Contracts.antt is specs/Private.antt, since each specs library has a module `contracts` of its own.
- A name that began in lower case and had a capital within a part is in snake case: stationOf is station_of.
- A definition or a field of specs/ whose parts a dash joined is in snake case too: read-undoes-write is read_undoes_write.
  A lemma of proofs/ keeps its dashes: a dash joins two names there.

Files of crates/ are rewritten in place; of the pages only what stands in backticks. It says which names of one file fall together.
"""

import collections
import glob
import os
import re
import sys

NAME = re.compile(r"[A-Za-z_0-9'₀-₉≢≡≤≠κ-]+")
PAGES = ["README.md", "CONTRIBUTING.md", *sorted(glob.glob("docs/*.md")), *sorted(glob.glob("docs/landings/*.md"))]

# Names that would fall together with a definition's new one, below these paths.
APART = [
    ("crates/ledger/proofs/Alike.antt crates/ledger_laws/", "is_open", "stands_open"),
    ("crates/lists/proofs/ crates/chart_net/proofs/Places.antt crates/class/proofs/Leaving.antt crates/class/proofs/Ports.antt crates/ledger_answer/proofs/Laws.antt", "first_below", "first_below-any"),
    ("crates/chart_mend/proofs/Sorting.antt", "next_place", "next-place_is"),
    ("crates/route_trace/proofs/Laws.antt crates/route_first_door/proofs/Laws.antt", "next_known", "next_known-trace"),
    ("crates/route_trace/specs/Cases.antt", "one_number", "number_or_refusal"),
]


def read(path):
    with open(path, encoding="utf-8", newline="") as it:
        return it.read()


def write(path, text):
    with open(path, "w", encoding="utf-8", newline="") as it:
        it.write(text)


def files(*endings):
    for folder, dirs, names in os.walk("crates"):
        dirs[:] = sorted(d for d in dirs if d != "out")
        for name in sorted(names):
            if name.endswith(endings):
                yield f"{folder}/{name}"


def parts_of(line, mark):
    """The code and the comment of a line."""
    at = re.search(r"(^|\s)" + re.escape(mark), line)
    return (line[: at.start()], line[at.start() :]) if at else (line, "")


def snake(part):
    if "_" in part or not re.match(r"[a-z]", part) or not re.search(r"[A-Z]", part):
        return part
    return re.sub(r"(?<=[a-z0-9])([A-Z])|(?<=[A-Z])([A-Z])(?=[a-z])", lambda m: "_" + (m[1] or m[2]), part).lower()


def camel(name):
    return "-".join(snake(part) for part in name.split("-"))


def declared(text):
    """The names that a file of antt declares: definitions, lemmas and fields."""
    for line in text.splitlines():
        code = parts_of(line, "--")[0]
        at = re.match(r"\s*(?:(?:pattern|unfoldable|abbrev|pub|axiom)\s+)*([^\s:(){}=]+) :(\s|$)", code)
        if at:
            yield at[1]


def new_names():
    """Each old name with its new one."""
    out, used = {}, collections.Counter()
    taken = set()
    for path in files(".antt"):
        text = read(path)
        for line in text.splitlines():
            at = re.match(r"use (\S+)\.\{(.*)\}", line)
            if at and not at[1].startswith("Rattle."):
                taken |= set(NAME.findall(at[2]))
            if at and at[1].startswith("Rattle.std."):
                taken |= set(NAME.findall(at[2]))
            used.update(NAME.findall(parts_of(line, "--")[0]))
        if "/specs/" in path:
            for name in declared(text):
                if "-" in name and re.match(r"[a-z0-9_'-]+$", name):
                    out[name] = name.replace("-", "_")
    for name in used:
        if re.match(r"[a-z]", name) and camel(out.get(name, name)) != name:
            out[name] = camel(out.get(name, name))
    return {a: b for a, b in out.items() if a != b and a not in taken}


def turn(text, names):
    return NAME.sub(lambda m: names.get(m[0], m[0]), text)


def turn_quoted(text, names):
    return re.sub(r"`[^`\n]*`", lambda m: turn(m[0], names), text)


def turn_code(text, names, mark):
    lines = []
    for line in text.split("\n"):
        code, comment = parts_of(line, mark)
        plain = {a: b for a, b in names.items() if "-" not in a}
        lines.append(turn(code, names) + turn_quoted(turn(comment, plain), names))
    return "\n".join(lines)


def fall_together(path, text, names):
    lines = [parts_of(it, "--")[0] for it in text.splitlines()]
    had = set(NAME.findall("\n".join(re.sub(r"^use \S+?(\.\{| as |$)", "", it) for it in lines)))
    for name in sorted(had):
        other = names.get(name, name)
        if other != name and other in had:
            print(f"look: {path}: {name} and {other} fall together")


def main():
    if len(sys.argv) > 1:
        print(__doc__)
        return 0
    for path in glob.glob("crates/*/specs/Contracts.antt"):
        os.rename(path, path.replace("Contracts.antt", "Private.antt"))
    for path in [*files(".antt", ".rt", ".edit"), *PAGES, "tools/definitions"]:
        text = read(path)
        new = re.sub(r"\.specs\.Contracts\b", ".specs.Private", text)
        new = re.sub(r"\bContracts\.antt\b", "Private.antt", new)
        if path.endswith("/specs/Lib.antt"):
            new = re.sub(r"^pub mod Contracts$", "pub mod Private", new, flags=re.M)
        for paths, old, other in APART:
            if path.startswith(tuple(paths.split())):
                new = "\n".join(it if it.startswith("use ") and ".{" not in it else turn(it, {old: other}) for it in new.split("\n"))
        if new != text:
            write(path, new)
    names = new_names()
    for path in files(".antt", ".rt", ".edit"):
        text = read(path)
        if path.endswith(".antt"):
            fall_together(path, text, names)
        if path.endswith(".edit"):
            new = "\n".join(it if it.startswith(("file: ", "#")) else turn(it, names) for it in text.split("\n"))
        else:
            new = turn_code(text, names, "//" if path.endswith(".rt") else "--")
        if new != text:
            write(path, new)
    for path in PAGES:
        text = read(path)
        new = turn_quoted(text, names)
        if new != text:
            write(path, new)
    print(f"{len(names)} names respelled")
    return 0


if __name__ == "__main__":
    raise SystemExit(main())
