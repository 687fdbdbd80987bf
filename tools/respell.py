#!/usr/bin/env python3
"""Brings the definitions and lemmas of this repository to the spelling of today's Rattle: words in snake case, facts and
types in camel case. Run once at the top of the repository, after the toolchain's port.py; a second run changes nothing.

It renames what specs/ and proofs/ declare (top level, sections, `where`, fields and constructors), wherever it stands in
.antt files, in the clauses of .rt files, in must-fail edits, and between backticks in README.md and docs/. The names of
goals, of src/ and of the library are not touched. Where a new name already stands in a file of specs/ or proofs/, it says
so and changes nothing; two old names with one new name are told."""

import os
import re
import sys

WORD = re.compile(r"[A-Za-z][A-Za-z0-9_']*(?:-[A-Za-z0-9_']+)+|[A-Z][A-Za-z0-9']*_[A-Za-z0-9_']+")
TOKEN = re.compile(r"[A-Za-z_][A-Za-z0-9_'-]*")
TOP = re.compile(r"(?:(?:abbrev|unfoldable|pub|data|record|ruleset)\s+)*([A-Za-z][A-Za-z0-9_'-]*)\s*(?::|\(|\{)")
INNER = re.compile(r"\s+(?:(?:abbrev|unfoldable|pub|data|record)\s+)*([A-Za-z][A-Za-z0-9_'-]*)\s*(?::|$)")
HEAD = re.compile(r"\s+(?:(?:abbrev|unfoldable|pub)\s+)*(?:data|record)\s+(?:pub\s+)?([A-Za-z][A-Za-z0-9_'-]*)")
BINDERS = re.compile(r"[({]\s*((?:[A-Za-z][A-Za-z0-9_'-]*\s+)+):")
PATTERNS = re.compile(r"[(,]\s*([a-z][a-z0-9_'-]*)(?=[,)])")
LETS = re.compile(r"\blet ([A-Za-z][A-Za-z0-9_'-]*)")
MADE = ("Answers.antt", "Invariants.antt")


def files(root, ends):
    for folder, dirs, names in os.walk(os.path.join(root, "crates")):
        dirs[:] = sorted(d for d in dirs if d not in ("out", ".git"))
        for name in sorted(names):
            if name.endswith(ends):
                yield os.path.join(folder, name)


def text_of(path):
    with open(path, encoding="utf-8") as f:
        return f.read()


def code(line, mark):
    """The line up to its comment."""
    at = line.find(mark)
    return line if at < 0 else line[:at]


def spelled(name):
    if name[0].isupper():
        return "".join(p[:1].upper() + p[1:] for p in re.split(r"[-_]", name))
    return name.replace("-", "_")


def declared(path):
    goals = set()
    for line in text_of(path).split("\n"):
        line = code(line, "--")
        if line.startswith("use ") or not line.strip():
            continue
        if re.match(r"(?:(?:abbrev|pub)\s+)*[A-Za-z][A-Za-z0-9_'-]* : goal\.", line):
            goals.add(line.split(" : goal.")[0].split()[-1])
            continue
        m = (TOP if not line[0].isspace() else INNER).match(line) or HEAD.match(line)
        if m:
            yield m[1]
        yield from LETS.findall(line)
        for names in BINDERS.findall(line):
            yield from names.split()
        if re.search(r" =( |$)", line):
            yield from PATTERNS.findall(re.split(r" =(?: |$)", line)[0])


def goals_of(path):
    return set(re.findall(r"([A-Za-z][A-Za-z0-9_'-]*) : goal\.", text_of(path)))


def library_names(text):
    """What the file imports from the library."""
    out = set()
    for m in re.finditer(r"use (Rattle\.std|mathlib|Prim|native)[^{};\n]*\{([^}]*)\}", text):
        out |= {n.strip() for n in m[2].split(",")}
    return out


def table(root):
    own = {}
    for path in files(root, ".antt"):
        text, goals = text_of(path), goals_of(path)
        foreign = library_names(text)
        for name in declared(path):
            if WORD.fullmatch(name) and name not in goals and name not in foreign:
                own[name] = spelled(name)
    return own


def turned(line, own, skip, said, path):
    def put(m):
        name = m[0]
        if name not in own or name in skip:
            return name
        if m.start() and line[m.start() - 1] == "." and line[: m.start()].endswith("goal."):
            return name
        if m.start() and line[m.start() - 1] == ".":
            said.append((path, name, line.strip()))
        return own[name]

    return TOKEN.sub(put, line)


def main():
    root = sys.argv[1] if len(sys.argv) > 1 else "."
    own = table(root)
    everywhere = {}
    said, new, clash = [], {}, []
    for path in files(root, (".antt", ".rt", ".edit")):
        text = text_of(path)
        skip = goals_of(path) | library_names(text)
        mark = "--" if path.endswith(".antt") else "//"
        before = set()
        lines = []
        for line in text.split("\n"):
            head = code(line, mark)
            before |= set(TOKEN.findall(head))
            parts = re.split(r'("(?:[^"\\]|\\.)*")', head) if path.endswith(".rt") else [head]
            lines.append("".join(p if p.startswith('"') and path.endswith(".rt") else turned(p, own, skip, said, path) for p in parts) + line[len(head):])
        # in a .rt file a clause's word and a function's name are told apart by where they stand
        words = set() if path.endswith(".rt") else {w for w in before if not re.search(r"proofs\.[\w.]*\b" + re.escape(w) + r"\.", text)}
        for name in before & own.keys() - skip:
            if own[name] in words:
                clash.append((path, name, own[name]))
        new[path] = "\n".join(lines)
    if "--said" in sys.argv:
        for s in said:
            print("dot:", *s)
    for c in clash:
        print("falls together:", *c)
    back = {}
    for name, to in own.items():
        if to in back:
            print("two names become one:", name, back[to], to)
        back[to] = name
    if clash and "--force" not in sys.argv:
        raise SystemExit(1)
    for path, text in new.items():
        if text != text_of(path):
            with open(path, "w", encoding="utf-8") as f:
                f.write(text)
    pages = [os.path.join(root, "README.md")] + [os.path.join(root, "docs", n) for n in sorted(os.listdir(os.path.join(root, "docs"))) if n.endswith(".md")]
    for path in pages:
        text = text_of(path)
        to = re.sub(r"`[^`\n]+`", lambda m: TOKEN.sub(lambda t: own.get(t[0], t[0]), m[0]), text)
        if to != text:
            with open(path, "w", encoding="utf-8") as f:
                f.write(to)
    if "--table" in sys.argv:
        for name in sorted(own):
            print(name, own[name], sep="\t")


main()
