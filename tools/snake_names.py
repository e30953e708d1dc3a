#!/usr/bin/env python3
"""Turns the names that the repository declares in its specs and proofs to snake case: `held-in` becomes `held_in`.

usage: python3 tools/snake_names.py [--list]      at the top of the repository

It reads every crate's .antt files for the names that are declared there (definitions, lemmas, fields, constructors), and writes an
underscore for each dash of such a name wherever it stands: in .antt files, in the clauses of .rt files, in backquotes in Markdown pages.
Names of the library, and those that the toolchain makes for goals, steps and places, are not declared in the repository and stay. So do
comments, strings and the code of functions. It prints a line where a name falls together with another word of its file, for a reader to
look at. A second run changes nothing.
"""
import os
import re
import sys

WORD = r"[A-Za-z_][\w'′]*(?:-[\w'′]+)*"
DECLARED = re.compile(rf"^\s*(?:pub |abbrev |unfoldable |opaque |private )*({WORD}(?: {WORD})*) :(?:\s|$)")
NAMED = re.compile(rf"^\s*(?:pub )?(?:record|data|ruleset|module) ({WORD})")
GOAL = re.compile(r":\s*(?:goal|goals|need|place|the)\.")
MADE = re.compile(r"^(?:invariant|decreases|returns|loop|overflow|bounds|prove|nonzero)[-_]|^invariant-of|-requires$")
TOKEN = re.compile(r"[\w'′≤≡<=+*◌·∷∙-]+")


def files(root, *ends):
    for folder, dirs, names in os.walk(os.path.join(root, "crates")):
        dirs[:] = sorted(d for d in dirs if d != "out")
        for name in sorted(names):
            if name.endswith(ends):
                yield os.path.join(folder, name)


def read(path):
    with open(path, encoding="utf-8") as f:
        return f.read()


def declared(path):
    """The names with a dash that a file declares."""
    found = set()
    for line in read(path).split("\n"):
        line = re.sub(r"(^|\s)--(\s.*)?$", "", line)
        named, plain = NAMED.match(line), DECLARED.match(line)
        if named:
            found.add(named[1])
        elif plain and not GOAL.search(line):
            found.update(n for n in plain[1].split() if not MADE.search(n))
    return {n for n in found if "-" in n}


def snake(name):
    return name.replace("-", "_")


def turn_text(text, names):
    return TOKEN.sub(lambda m: snake(m[0]) if m[0] in names else m[0], text)


def turn_antt(text, names):
    out = []
    for line in text.split("\n"):
        m = re.search(r"(^|\s)--(\s|$)", line)
        cut = m.start() if m else len(line)
        out.append(turn_text(line[:cut], names) + line[cut:])
    return "\n".join(out)


def turn_rt(text, names):
    """Code has blanks round a minus sign, so a name with a dash stands only in clauses, comments and strings."""
    parts = re.split(r'(//[^\n]*|b?"(?:[^"\\]|\\.)*")', text)
    return "".join(p if i % 2 else turn_text(p, names) for i, p in enumerate(parts))


def turn_page(text, names):
    return re.sub(r"`[^`\n]+`", lambda m: turn_text(m[0], names), text)


def clashes(text, names):
    """Names of the file that are the new spelling of another name of it."""
    there = set(TOKEN.findall(text))
    return sorted(n for n in names & there if snake(n) in there)


def pages(root):
    yield os.path.join(root, "README.md")
    docs = os.path.join(root, "docs")
    yield from (os.path.join(docs, n) for n in sorted(os.listdir(docs)) if n.endswith(".md"))


def main(argv):
    root = "."
    names = set().union(*(declared(p) for p in files(root, ".antt")))
    if argv == ["--list"]:
        print("\n".join(sorted(names)))
        return 0
    together, changed = [], 0
    turns = [(turn_antt, files(root, ".antt")), (turn_rt, files(root, ".rt")), (turn_page, pages(root))]
    for turn, paths in turns:
        for path in paths:
            old = read(path)
            together += [f"{path}: {n} and {snake(n)}" for n in clashes(old, names)]
            new = turn(old, names)
            if new != old:
                changed += 1
                with open(path, "w", encoding="utf-8") as f:
                    f.write(new)
    print(f"{len(names)} names, {changed} files changed")
    for line in together:
        print("look: " + line)
    return 0


if __name__ == "__main__":
    raise SystemExit(main(sys.argv[1:]))
