#!/usr/bin/env python3
"""Brings this repository's own definitions and lemmas to snake case; port.py, run before it, turned the library's.

usage: tools/respell.py [FOLDER]     (once, at the top of a checkout of port.py's commit, or of FOLDER)

Every name that a text of specs/ or a lemma file of proofs/ declares, and every field of a record there, changes:
`areaSize` to `area_size`, `over-append` to `over_append`. Types, modules and Rust's own names stay. The names of a
function's Proof.antt are goals' names, and stay too, but for the proof itself, `f-spec`, which is now `f_spec`.
A lemma that would have its definition's name gets `_lem`.
"""
import os
import re
import sys

TOKEN = r"(?<![\w'◌·\-]){}(?![\w'\-◌·])"
DECLARED = re.compile(r"^\s*(?:(?:pub|abbrev|unfoldable|opaque)\s+)*([a-z][\w'\-]*)((?:\s+[a-z][\w'\-]*)*)\s*:(?!:)")
# Lemmas whose plain snake case is the name of the definition that they speak of.
FALLS = """
name-length long-form session-in job-writing record-room install-form selectable-form room-spot table-row record-row
rule-b due-row gp-ok internal-ok selected-ok record-fits open-ok from-g from-f from-e from-d from-c from-b laid-all
job-front table-some life-of veil-secret record-step byte-at with-last
""".split()
# Lemmas that had such a name already, each with the crates that cite it.
MOVED = {
    "goes_on": ["call_run"],
    "all_right": ["model"],
    "names_in": ["theorem_cutting"],
    "is_name": ["theorem_cutting"],
    "spot_in": ["theorem_cutting"],
    "kept_of": ["theorem_sound"],
    "no_digit": ["job_text"],
}


def snake(name):
    return re.sub(r"(?<=[a-z0-9])[A-Z]+", lambda m: "_" + m[0].lower(), name).replace("-", "_")


def files(root, *endings):
    for folder, dirs, names in os.walk(os.path.join(root, "crates")):
        dirs[:] = sorted(d for d in dirs if d != "out")
        for n in sorted(names):
            if n.endswith(endings):
                yield os.path.join(folder, n)


def read(path):
    with open(path, encoding="utf-8") as f:
        return f.read()


def is_of_a_function(path):
    return os.path.basename(path) == "Proof.antt"


def is_of_a_module(path):
    return os.path.basename(path) == "Lib.antt"


def declared(root):
    names = {}
    for path in files(root, ".antt"):
        text = read(path)
        for line in text.split("\n"):
            m = DECLARED.match(line)
            if not m:
                continue
            for n in [m[1]] + m[2].split():
                if is_of_a_function(path) and not n.endswith("-spec"):
                    continue
                new = snake(n) + ("_lem" if n in FALLS else "")
                if new != n:
                    names[n] = new
    return names


def of_the_library(text, crates):
    """The names that a text imports from elsewhere than this repository."""
    names = set()
    for m in re.finditer(r"\buse ([\w.]+?)\.?\{([^}]*)\}", text):
        steps = m[1].split(".")
        if steps[0] != "Rattle" or steps[1] not in crates:
            names.update(n.split(" as ")[0].strip() for n in m[2].split(","))
    return names


def spell(text, names, path):
    if not names:
        return text
    alternatives = "|".join(re.escape(n) for n in sorted(names, key=len, reverse=True))
    name = re.compile(TOKEN.format("(?:" + alternatives + ")"))
    ticked = re.compile("(?<=`)(?:" + alternatives + ")(?=`)")
    lines = []
    for line in text.split("\n"):
        comment = re.search(r"(?:^|\s)(?:--|//)(?:\s|$)", line)
        if path.endswith(".edit"):
            comment = None
            if not line.startswith(("old:", "new:")):
                lines.append(line)
                continue
        code, rest = (line[: comment.start()], line[comment.start() :]) if comment else (line, "")
        parts = re.split(r'("(?:[^"\\]|\\.)*")', code)
        parts[::2] = [name.sub(lambda m: names[m[0]], part) for part in parts[::2]]
        lines.append("".join(parts) + ticked.sub(lambda m: names[m[0]], rest))
    return "\n".join(lines)


def main():
    root = sys.argv[1] if len(sys.argv) > 1 else "."
    names = declared(root)
    crates = set(os.listdir(os.path.join(root, "crates")))
    changed = 0
    for path in files(root, ".antt", ".rt", ".edit"):
        text = read(path)
        crate = os.path.relpath(path, os.path.join(root, "crates")).split(os.sep)[0]
        moved = {n: n + "_lem" for n, of in MOVED.items() if crate in of and path.endswith(".antt")}
        new = text if is_of_a_module(path) else spell(text, moved, path)
        theirs = of_the_library(text, crates)
        for n in sorted(theirs & names.keys()):
            print(f"respell: look: {path}: {n} is the library's")
        new = spell(new, {n: names[n] for n in names if n not in theirs}, path)
        if new != text:
            changed += 1
            with open(path, "w", encoding="utf-8") as f:
                f.write(new)
    print(f"respell: {len(names)} names in {changed} files")


if __name__ == "__main__":
    main()
