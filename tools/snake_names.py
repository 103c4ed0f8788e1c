#!/usr/bin/env python3
"""Gives the repository's own definitions, lemmas and local names of specs/ and proofs/ the spelling of today's Rattle: snake case, where they had dashes.

usage: python3 tools/snake_names.py    at the top of the repository, once, after the toolchain's port.py

It turns every name with a dash in the code of .antt files, in clauses and `ghost use` lines of .rt files, in must-fail edits, and in code spans of
comments and pages, but for names that a file imports from the toolchain's library. Words in prose stay. If two names would become one it says so and writes
nothing.
"""
import os
import re
import sys

WORD = r"[^\W\d_](?:[\w'₀]|(?<=[\w'])-(?=[\w']))*"
NAME = re.compile(r"(?<![\w'-])(" + WORD + r")(?![\w'-])")
USE = re.compile(r"\buse\s+([\w.+◌'·-]+)\.\{([^}]*)\}")
SPAN = re.compile(r"`([^`\n]*)`")
GIVEN = {"must-fail"}
# These would fall together with words of the library.
OTHERWISE = {"bit-and": "bit_of_and", "bit-or": "bit_of_or"}


def files():
    for top in ("crates", "docs", "README.md"):
        if os.path.isfile(top):
            yield top
        for folder, dirs, names in os.walk(top):
            dirs[:] = [d for d in dirs if d != "out"]
            for n in sorted(names):
                if n.endswith((".antt", ".rt", ".edit", ".md")):
                    yield os.path.join(folder, n)


def read(p):
    with open(p, encoding="utf-8") as f:
        return f.read()


def kit_names(text):
    """The names with a dash that the text imports from the toolchain's library."""
    found = set()
    for path, items in USE.findall(text):
        own = re.match(r"Rattle\.(\w+)", path)
        if path.startswith("Rattle") and own and os.path.isdir(os.path.join("crates", own.group(1))):
            continue
        for item in items.split(","):
            found |= {w for w in item.split() if "-" in w}
    return found


def split_comment(line, mark):
    at = line.find(mark)
    return (line, "") if at < 0 else (line[:at], line[at:])


def main():
    texts = {p: read(p) for p in files()}
    kit = set(GIVEN)
    for p, t in texts.items():
        if p.endswith((".antt", ".rt")):
            kit |= kit_names(t)
    own = set()
    for p, t in texts.items():
        if p.endswith(".antt"):
            for line in t.splitlines():
                own |= {w for w in NAME.findall(split_comment(line, "--")[0]) if "-" in w and w not in kit}
    words = {w for p, t in texts.items() if p.endswith(".antt") for w in NAME.findall(t)}
    turned = {w: OTHERWISE.get(w, w.replace("-", "_")) for w in own}
    together = {}
    for w in own:
        together.setdefault(turned[w], []).append(w)
    for s, ws in sorted(together.items()):
        if len(ws) > 1:
            print("together:", s, ws)
            return 1

    def turn(m):
        return turned.get(m.group(1), m.group(1))

    def turn_cited(m):
        """Also a name that the toolchain's script has turned in the code, and not where it is quoted."""
        w = m.group(1)
        snake = w.replace("-", "_")
        return snake if "-" in w and w not in kit and snake in words else turn(m)

    def spans(text):
        return SPAN.sub(lambda m: "`" + NAME.sub(turn_cited, m.group(1)) + "`", text)

    for p, t in texts.items():
        out = []
        if p.endswith(".md"):
            new = spans(t)
        elif p.endswith(".antt"):
            for line in t.split("\n"):
                code, note = split_comment(line, "--")
                out.append(NAME.sub(turn, code) + spans(note))
            new = "\n".join(out)
        elif p.endswith(".rt"):
            for line in t.split("\n"):
                code, note = split_comment(line, "//")
                out.append(NAME.sub(turn, code) + spans(note))
            new = "\n".join(out)
        else:
            for line in t.split("\n"):
                head = re.match(r"(file|old|new):", line)
                out.append(NAME.sub(turn_cited, line) if head and head.group(1) != "file" else line)
            new = "\n".join(out)
        if new != t:
            with open(p, "w", encoding="utf-8") as f:
                f.write(new)
    return 0


sys.exit(main())
