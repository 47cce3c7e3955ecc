#!/usr/bin/env python3
"""Brings the repository's own definitions and lemmas to today's spelling, once, behind port.py.

usage: python3 tools/respell.py          at the top of the repository, on what /opt/rattle/port/port.py made

Words are in snake case, and a statement (a definition whose value is a type) is in upper camel case. Only names that this
repository defines in specs/ and proofs/ are turned, as whole words, in its .antt files and in the ghost text of its .rt
files. A name that the library has too, or that two names would fall together in, is left, and printed.
"""
import collections
import os
import re
import sys

WORD = r"[\w'′·-]"
NAMED = re.compile(r"^(\s*)((?:(?:abbrev|unfoldable|pub)\s+)*)((?:record|data)\s+)?([\w'′-]+)((?:\s+[{(].*?)?)\s*(?::(?!=)|where)(.*)$")
LIBRARY = re.compile(r"use\s+(?:Rattle\.(?:std|core)|borrow|mathlib|native|lib|antt)[\w.'·-]*\.\{([^}]*)\}")
GOAL = re.compile(r":\s*(?:goal|need|given|choice)s?\.")


def files(ending):
    for root, dirs, names in os.walk("crates"):
        dirs[:] = sorted(d for d in dirs if d != "out")
        for name in sorted(names):
            if name.endswith(ending):
                yield os.path.join(root, name)


def read(path):
    with open(path, encoding="utf-8") as f:
        return f.read()


def snake(name):
    name = name.replace("-", "_")
    return re.sub(r"(?<=[a-z0-9])[A-Z]|(?<=[A-Z])[A-Z](?=[a-z])", lambda m: "_" + m.group(0), name).lower()


def camel(name):
    return "".join(part[:1].upper() + part[1:] for part in re.split(r"[-_]", name))


def statement(signature):
    """Whether a definition of this signature has types as its values."""
    return re.search(r"(?:→|^)\s*Type 0\s*$", signature.strip()) is not None


def meet(texts, name, new):
    """Whether one file has both words; a part of a path is none."""
    words = [re.compile(f"(?<!{WORD})(?<![.]){re.escape(n)}(?!{WORD})(?![.])") for n in (name, new)]
    return any(all(w.search(t) for w in words) for t in texts)


def main():
    texts = [read(path) for path in files(".antt")]
    own, library, lines = {}, set(), collections.defaultdict(set)
    for path in list(files(".antt")) + list(files(".rt")):
        for listed in LIBRARY.findall(read(path)):
            library.update(n.split(" as ")[0].strip() for n in listed.split(","))
    for path in files(".antt"):
        for line in read(path).split("\n"):
            m = NAMED.match(line)
            if not m or line.lstrip().startswith(("use ", "--", "let ")) or GOAL.search(line):
                continue
            name, signature = m.group(4), m.group(6)
            lines[name].add(path)
            if "-" not in name and not re.search(r"[a-z0-9][A-Z]", name):
                continue
            if name[0].isupper() and not statement(signature):
                continue
            own[name] = camel(name) if statement(signature) else snake(name)
    for path in files(".antt"):
        for line in read(path).split("\n"):
            m = NAMED.match(line)
            if m and GOAL.search(line):
                own.pop(m.group(4), None)
    back = collections.defaultdict(set)
    for name, new in own.items():
        back[new].add(name)
    for name, new in sorted(own.items(), key=lambda n: ("-" not in n[0], n[0])):
        if name == new:
            own.pop(name)
        elif "-" in name and len(back[new]) > 1 and f"{new}_lem" not in lines:
            own[name] = f"{new}_lem"  # a lemma on the function of that name
            back[new].discard(name)
        elif name in library or new in library or len(back[new]) > 1 or meet(texts, name, new):
            print(f"left: {name} (would be {new}): {', '.join(sorted(lines[name]))[:160]}")
            own.pop(name)
    if not own:
        print("respell: nothing to turn")
        return
    turn = re.compile(f"(?<!{WORD})(?:" + "|".join(sorted(map(re.escape, own), key=len, reverse=True)) + f")(?!{WORD})")
    changed = 0
    for path in list(files(".antt")) + list(files(".rt")):
        was = read(path)
        if path.endswith(".antt"):
            now = turn.sub(lambda m: own[m.group(0)], was)
        else:
            now = re.sub(r'"(?:[^"\\]|\\.)*"|(?:[^"]+)', lambda part: part.group(0) if part.group(0).startswith('"') else turn.sub(lambda m: own[m.group(0)], part.group(0)), was)
        if now != was:
            with open(path, "w", encoding="utf-8") as f:
                f.write(now)
            changed += 1
    print(f"respell: {len(own)} names turned in {changed} files")


if __name__ == "__main__":
    sys.exit(main())
