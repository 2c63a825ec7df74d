#!/usr/bin/env python3
"""Counts, point by point of docs/DESIGN-PASS.md, the places in src/ that the pass is about.

    python3 tools/places.py [POINT..] [--list]

It goes by text, so it also finds places that stay: docs/DESIGN-PASS.md says which, and why.
"""
import collections
import glob
import re
import sys

FILES = sorted(glob.glob("crates/*/src/*.rt"))
TEXTS = {name: open(name, encoding="utf-8").read() for name in FILES}
FUNCTION = re.compile(r"^( *)(?:pub )?fn (\w+).*?^\1\}$", re.M | re.S)
FLAG = re.compile(r"pub (number|status|fault|failed|going|ended|good|ending|state|is_\w+|locks|refused)\s*:\s*(u8|bool)\b")
TOKEN = re.compile(r"\w+|[^\w\s]")
KEYWORDS = set("let mut if else while for in match return fn pub break continue as ensures requires true false".split())


def place(name, at):
    return f"{name}:{TEXTS[name].count(chr(10), 0, at) + 1}"


def found(pattern, flags=re.M):
    for name in FILES:
        for m in re.finditer(pattern, TEXTS[name], flags):
            yield place(name, m.start()), " ".join(m.group(0).split())[:100]


def functions():
    for name in FILES:
        for m in FUNCTION.finditer(TEXTS[name]):
            yield name, m.start(), m.group(2), m.group(0)


def body(text):
    return text[text.find("\n{" if "\n{" in text else "{"):]


def shape(text):
    """A function's body with its own names and numbers by order of their coming."""
    names, out = {}, []
    for token in TOKEN.findall(re.sub(r"//.*", "", body(text))):
        if token in KEYWORDS or not re.match(r"\w", token):
            out.append(token)
        else:
            out.append(names.setdefault(token, f"n{len(names)}"))
    return " ".join(out)


def enums():
    for name in FILES:
        for m in re.finditer(r"enum (\w+) \{(.*?)^\}", TEXTS[name], re.M | re.S):
            kinds = re.findall(r"^    (\w+)( \{|\(|,)", m.group(2), re.M)
            full = [kind for kind, end in kinds if end != ","]
            if len(kinds) == 2 and full:
                yield place(name, m.start()), f"enum {m.group(1)} of two kinds"
            elif len(kinds) > 2 and any(k in ("Nothing", "None", "Nowhere") for k, _ in kinds):
                yield place(name, m.start()), f"enum {m.group(1)} with a kind for nothing"


def point_1():
    yield from enums()
    for name in FILES:
        for m in re.finditer(r"struct (\w+)(?:<[^>]*>)? \{(.*?)^\}", TEXTS[name], re.M | re.S):
            for flag in FLAG.finditer(m.group(2)):
                yield place(name, m.start()), f"struct {m.group(1)}: {flag.group(1)}: {flag.group(2)}"
    yield from found(r"^ *(?:pub )?const [A-Z_]+: u8 = (?:\d+|0x0\d);")
    yield from found(r"-> u8\b[^{;]*\{", re.M | re.S)


def shared(groups, least):
    for places in groups.values():
        if least <= len(places):
            yield from places


def point_2():
    shapes = collections.defaultdict(list)
    for name, at, what, text in functions():
        if len(body(text).splitlines()) > 3 or "[0" in text:
            shapes[shape(text)].append((place(name, at), what))
    yield from shared(shapes, 2)


def point_3():
    yield from found(r"^ *while .*$")
    yield from found(r"^ *for _ in .*$")


def point_4():
    yield from found(r"^ *(?:pub )?fn (same\w*|reads|keep|least|wide|is_shut|put_form|put_text|put_hex)\b.*$")
    yield from found(r"b\"[^\"]*[#&%$~@]", re.M)
    yield from found(r"^ *(\w+): \1,$")
    yield from found(r"^ *let (\w+) = \w+\.\1;$")


def point_5():
    facts = collections.defaultdict(list)
    for name, at, what, text in functions():
        m = re.search(r"requires (?:\w+ )?\{(.*?)\n    (?:ensures|\{)|requires (?:\w+ )?\{(.*?)\n\{", text, re.S)
        if m:
            clause = (m.group(1) or m.group(2) or "").rstrip().rstrip("}")
            for fact in clause.split("×"):
                fact = " ".join(fact.split()).strip(" ()")
                facts[fact].append((place(name, at), f"{what}: {fact}"))
    yield from shared(facts, 3)
    groups = collections.defaultdict(list)
    for name, at, what, text in functions():
        head = re.search(r"fn \w+(?:<[^(]*>)?\((.*?)\)\s*(?:->|requires|ensures|\{|\n)", text, re.S)
        names = re.findall(r"(\w+):", head.group(1)) if head else []
        for i in range(len(names) - 3):
            groups[tuple(names[i:i + 4])].append((place(name, at), f"{what}: {', '.join(names[i:i + 4])}"))
    yield from shared(groups, 3)


def point_6():
    yield from found(r"files: \[Descriptor; 31\],\s*count: usize")
    yield from found(r"&mut \[u8\],\s*at: usize")
    yield from found(r"^fn \w*(buffer|room)\(\)|^pub fn \w*(buffer|room|clear_area)\(\)")
    yield from found(r"^ *pub (namelen|count|len|filled|gathered): usize")


def point_7():
    for name, at, what, text in functions():
        if len(re.findall(r"if (?:kind|number|row|tag|mark|place) == ", text)) > 1:
            yield place(name, at), f"{what}: a switch by numbers"


POINTS = {1: point_1, 2: point_2, 3: point_3, 4: point_4, 5: point_5, 6: point_6, 7: point_7}


def main():
    words = [w for w in sys.argv[1:] if w != "--list"]
    for n in [int(w) for w in words] or sorted(POINTS):
        places = sorted(set(POINTS[n]()))
        print(f"point {n}: {len(places)} places")
        if "--list" in sys.argv:
            for where, what in places:
                print(f"  {where}: {what}")


if __name__ == "__main__":
    main()
