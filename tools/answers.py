#!/usr/bin/env python3
"""Turns a crate's Proof.antt files, which walk the code by hand, to Invariants.antt and Answers.antt.

usage: tools/answers.py CRATE NAMES [FUNCTION..]

NAMES is the names.json that `rt check --generated DIR --old-names` writes for the crate. A file is turned where the
names say so; what is left is for the check to say.
"""
import json
import os
import re
import sys

W = r"[A-Za-z_][\w'\-₀]*"
DECL = re.compile(rf"^(?:abbrev )?(?:pub )?({W}) :(?!:)")


def alike(name):
    return re.sub(r"[-_·]", "", name).lower()


def sections(text):
    """The head, the imports, and each declaration as its lines."""
    head, uses, decls, now = [], [], [], None
    comment = []
    for line in text.split("\n"):
        if line.startswith("use "):
            uses.append(line)
            now = uses
        elif now is uses and line.startswith("    ") and not decls:
            uses[-1] += "\n" + line
        elif DECL.match(line) and (now is None or now is uses or not line.startswith(" ")):
            decls.append(comment + [line])
            comment = []
            now = decls[-1]
        elif line.startswith("--"):
            if not uses and not decls:
                head.append(line)
            else:
                comment.append(line)
        elif line.strip() == "":
            if now is not None and now is not uses:
                now.append(line)
        else:
            if now is None or now is uses:
                decls.append(comment + [line])
                comment = []
                now = decls[-1]
            else:
                now.append(line)
    return head, uses, decls


def steps_of(names):
    """Each step's old name, spelled alike, to its new one."""
    found = {}
    for place in names["places"]:
        old, new = place[2]
        own = place[3] is None and re.fullmatch(r".*-\d+", new)
        if old and not own:
            found.setdefault(alike(old), new)
            found.setdefault(alike(new), new)
    for arm in names["arms"]:
        if isinstance(arm, list):
            for pair in arm:
                if isinstance(pair, list) and len(pair) == 2 and all(isinstance(x, str) for x in pair):
                    found.setdefault(alike(pair[0]), pair[1])
    return found


def walk_turned(text, steps):
    text = re.sub(r"(?:\.before)+(?![\w'-])", "", text)

    def one(m):
        if m[1] in ("result", "ensures", "requires", "args", "new", "now"):
            return m[0]
        return "." + steps.get(alike(m[1]), m[1])

    return re.sub(rf"(?<=[\w)])(?<!args)(?<!now)(?<!new)(?<!loop)\.({W})", one, text)


def variables_turned(body, binders, variables, changed):
    spelled, seen = {}, {}
    order = []
    for v, c in zip(variables, changed):
        order.append((v, "initial" if c else None))
    for v, c in zip(variables, changed):
        if c:
            order.append((v, "now"))
    if len(order) != len(binders):
        return None
    for b, (v, kind) in zip(binders, order):
        spelled[b] = f"l.initial.{v}" if kind == "initial" else f"l.{v}"

    def one(m):
        return spelled.get(m[0], m[0])

    return re.sub(rf"(?<![\w'.\-]){W}(?![\w'\-])", one, body)


def turn(crate, function, names):
    folder = f"crates/{crate}/proofs/" + function.replace(".", "/")
    path = f"{folder}/Proof.antt"
    if not os.path.exists(path):
        return
    with open(path, encoding="utf-8") as f:
        text = f.read()
    head, uses, decls = sections(text)
    uses = [u for u in uses if not re.search(r"\.(Statement\.\{|Tie as tie)", u)]
    steps = steps_of(names)
    needs = {}
    for old, new in names["needs"]:
        needs.setdefault(alike(old), new)
    for old, new in names["needs"]:
        needs.setdefault(alike(new), new)
        needs.setdefault(alike("overflow-" + old), new)
    loops = {}
    for ((old, new), variables), changed in zip(names["loops"], names["changed"]):
        loops[alike(old)] = (new, variables, changed)
    invariants, answers, left = [], [], []
    called = {}
    for decl in decls:
        at = next(i for i, line in enumerate(decl) if not line.startswith("--")) if any(not l.startswith("--") for l in decl) else 0
        whole = "\n".join(decl).rstrip("\n")
        first = "\n".join(decl[at:])
        m = DECL.match(first)
        if m and m[1].endswith("_spec") and "tie.close" in first or m and "statement" in first:
            continue
        loop = re.match(rf"abbrev (?:pub )?(invariant|decreases)-({W}) : tie\.\1-({W})", first)
        if loop:
            new, variables, changed = loops[alike(loop[3])]
            kind = loop[1]
            rest = first[first.index("\n") + 1 :].rstrip("\n")
            eq = re.match(rf"({W})((?:\s+(?:{W}|_))*)\s*=\s*", rest)
            binders = eq[2].split()
            body = variables_turned(rest[eq.end() :], binders, variables, changed)
            if body is None:
                left.append(f"{function}: {kind}-{new}: {len(binders)} binders for {variables} {changed}")
                body = rest[eq.end() :]
            name = f"{kind}-{new}"
            comments = "\n".join(decl[:at]) + ("\n" if at else "")
            invariants.append(f"{comments}abbrev pub {name} : goal.{name}\n{name} l =\n    {body.strip()}")
            continue
        need = re.match(rf"({W}) : tie\.(?:Need-)({W})", first)
        if need:
            name = needs.get(alike(need[2]))
            if name is None:
                left.append(f"{function}: no goal for {need[2]}")
                continue
            lines = first.rstrip("\n").split("\n")
            rest = lines[1:]
            while rest and not rest[0].startswith(("unfolding", need[1])):
                rest = rest[1:]
            body = "\n".join(rest)
            body = re.sub(rf"(?m)^{re.escape(need[1])}(?=\s)", name, body, count=1)
            body = re.sub(rf"(?m)^({re.escape(name)} \w+) κs(?= )", r"\1", body, count=1)
            arm = re.search(r"-in-([A-Za-z]\w*)", name)
            if arm:
                body = re.sub(rf"\b(\w+)(?:\.{W})*\.given\.1(?![\w.])", rf"\1.in-{arm[1]}.is", body)
            called[need[1]] = name
            comments = "\n".join(decl[:at]) + ("\n" if at else "")
            answers.append(f"{comments}pub {name} : goal.{name}\n{walk_turned(body, steps)}")
            continue
        answers.append(walk_turned(whole, steps))
    module = f"Rattle.{crate}.proofs.{function}"
    head = "\n".join(head)
    if invariants:
        with open(f"{folder}/Invariants.antt", "w", encoding="utf-8") as f:
            f.write(f"{head}\n" + "\n".join(uses) + f"\nuse {module}.Given as goal\n\n" + "\n\n".join(invariants) + "\n")
    if answers:
        with open(f"{folder}/Answers.antt", "w", encoding="utf-8") as f:
            f.write(f"{head}\n" + "\n".join(uses) + f"\nuse {module}.Goals as goal\n\n" + "\n\n".join(answers) + "\n")
    os.remove(path)
    for line in left:
        print("answers: left: " + line)


def main():
    crate, listed = sys.argv[1], sys.argv[2]
    with open(listed, encoding="utf-8") as f:
        names = json.load(f)
    only = sys.argv[3:]
    for key, of in names.items():
        m = re.fullmatch(rf"Rattle-{crate}-proofs\.(.*)\.Lts", key)
        if m and (not only or m[1] in only):
            turn(crate, m[1], of)


if __name__ == "__main__":
    main()
