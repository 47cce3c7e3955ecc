#!/usr/bin/env python3
"""Lists the places in crates/*/src that may still be written in an older form, point by point, with their counts.

    python3 tools/old_forms.py [FOLDER] [--places]

FOLDER is the top of a checkout (this one by default), so that an older commit can be counted from a worktree of it.
With --places each place is printed, and else the counts alone. Tests and the crate `trials` are not read. A row is a
place to look at; what was changed and what was kept, with the reason, stands in docs/DESIGN-PASS.md.
"""
import collections
import pathlib
import re
import sys

ROWS = [
    ("1 enums", r"^\s*(pub(\(crate\))? )?enum "),
    ("1 functions that return a number for nothing", r"^pub fn \w+\(\) -> u8$"),
    ("1 flags in parameters and fields", r"\b\w+: bool\b"),
    ("1 refusals told by comparing numbers", r"\.number(\(\))? (==|!=|<|<=|>|>=) "),
    ("3 while and loop", r"\bwhile \b|\bloop \{"),
    ("3 for over a range from 0", r"\bfor \w+ in 0\.\."),
    ("4 equality, order or copying by hand", r"\bfn (is_same|same|eq|cmp|partial_cmp|clone|hash)\b"),
    ("4 conversion by `as`", r"\bas (u8|u16|u32|u64|usize)\b"),
    ("4 conversion by methods", r"\bfn (number|place|as_\w+|to_\w+|into_\w+)\("),
    ("4 printing by hand", r"\bfn (put\w*|push_decimal|layer_word)\b"),
    ("6 arrays of a fixed size", r"\[[\w:']+; ?\w+\]"),
    ("6 lengths beside a buffer", r"^\s*(pub(\(crate\))? )?(used|len|count): (u8|usize)"),
    ("7 function pointers and dyn", r"\bdyn \b|: fn\("),
]


def sources(top):
    for path in sorted((top / "crates").glob("*/src/**/*.rt")):
        parts = path.relative_to(top).parts
        if parts[1] != "trials" and path.name != "tests.rt":
            text = path.read_text()
            yield path.relative_to(top), text.split("#[cfg(test)]\nmod tests {")[0]


def heads(text):
    """Each function's head: from `fn` to the brace that opens its body, or to its end."""
    for found in re.finditer(r"\bfn (\w+)", text):
        rest = text[found.start():]
        end = re.search(r"\n\s*\{\n|\{\n|;\n", rest)
        yield found.group(1), rest[: end.start() if end else len(rest)]


def parameters(head):
    inside = re.search(r"\((.*?)\)\s*(->|$|\n|where)", head, re.S)
    names = re.findall(r"(\w+): ", inside.group(1)) if inside else []
    return [name for name in names if name not in ("ghost",)]


def main():
    args = [a for a in sys.argv[1:] if not a.startswith("--")]
    top = pathlib.Path(args[0] if args else ".")
    show = "--places" in sys.argv
    files = list(sources(top))
    for label, pattern in ROWS:
        places = []
        for path, text in files:
            for number, line in enumerate(text.split("\n"), 1):
                if not line.strip().startswith(("//", "ghost ", "requires ", "ensures ")):
                    places += [f"{path}:{number}: {line.strip()}"] * len(re.findall(pattern, line))
        print(f"{len(places):4}  {label}")
        if show:
            print("".join(f"        {place}\n" for place in places), end="")
    clauses, pairs = collections.defaultdict(list), collections.defaultdict(list)
    for path, text in files:
        crate = path.parts[1]
        for name, head in heads(text):
            for clause in set(re.findall(r"requires[^{]*\{(.*)\}", head)):
                clauses[crate, clause.strip()].append(name)
            together = parameters(head)
            for i, first in enumerate(together):
                for second in together[i + 1:]:
                    pairs[crate, first, second].append(name)
    for label, found in [("5 clauses required by three or more functions", clauses),
                         ("5 parameters together in three or more functions", pairs)]:
        often = {key: names for key, names in found.items() if len(names) >= 3}
        print(f"{len(often):4}  {label}")
        if show:
            for key, names in often.items():
                print(f"        {' '.join(key)}: {' '.join(names)}")
    answers = sum(len(re.findall(r"^(?:abbrev )?pub \S+ : goal\.", p.read_text(), re.M))
                  for p in (top / "crates").glob("*/proofs/**/Answers.antt"))
    lines = sum(len(p.read_text().split("\n")) - 1 for p in (top / "crates").glob("*/proofs/**/*.antt"))
    print(f"{answers:4}  8 goals answered in proofs/**/Answers.antt")
    print(f"{lines:4}  8 lines in proofs/")


main()
