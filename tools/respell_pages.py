#!/usr/bin/env python3
"""Brings the names in README.md, docs/ and bench/'s pages to today's spelling: what stands in backticks, where the
repository declares that name (run once, behind tools/respell.py).

usage: tools/respell_pages.py
"""
import glob
import os
import re
import sys

sys.path.insert(0, os.path.dirname(os.path.abspath(__file__)))
import respell

NAME = re.compile(r"(?<![\w'-])[a-z][\w'\-]*(?![\w'-])")


def main():
    os.chdir(os.path.join(os.path.dirname(os.path.abspath(__file__)), ".."))
    known = set()
    for path in respell.files(".", ".antt"):
        for line in respell.read(path).split("\n"):
            m = respell.DECLARED.match(line)
            if m:
                known.update([m[1]] + m[2].split())
            for more in re.findall(r"\b(?:record|data) (\w+)", line):
                known.add(more)
    edits = {os.path.basename(p)[:-5] for p in respell.files(".", ".edit")}

    def one(m):
        word = m[0]
        if not re.search(r"[A-Z\-]", word) or word in known or word in edits:
            return word
        new = respell.snake(word)
        for candidate in (new + "_lem" if word in respell.FALLS else new, new):
            if candidate in known:
                return candidate
        return word

    pages = ["README.md"] + sorted(glob.glob("docs/**/*.md", recursive=True)) + sorted(glob.glob("bench/*.md"))
    for path in pages:
        if os.path.basename(path) in ("PORT.md", "01-scope.md"):
            continue
        text = respell.read(path)
        new = re.sub(r"`[^`\n]+`", lambda m: NAME.sub(one, m[0]), text)
        if new != text:
            with open(path, "w", encoding="utf-8") as f:
                f.write(new)
            print(path)


if __name__ == "__main__":
    main()
