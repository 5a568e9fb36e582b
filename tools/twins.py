#!/usr/bin/env python3
"""Lists functions of src/ whose bodies are alike but for names and numbers: twins, of which one may do. For docs/DESIGN-PASS.md.

    tools/twins.py [FOLDER]    FOLDER has crates/; without one it is the repository's own
"""
import collections
import glob
import os
import re
import sys

KEYWORDS = set("as break const else enum false fn for if impl in let loop match mut return self Self struct true while".split())
TYPES = re.compile(r"^(u8|u16|u32|u64|usize|i64|bool)$")
LEAST = 3  # lines of a body


def functions(text):
    """Each function's name and its body's lines."""
    lines = text.split("\n")
    for i, line in enumerate(lines):
        found = re.match(r"( *)(?:pub(?:\(\w+\))? )?(?:extern \"C\" )?fn (\w+)", line)
        if not found:
            continue
        indent = found[1]
        start = next((j for j in range(i, len(lines)) if lines[j] == indent + "{" or (lines[j].endswith("{") and "≡" not in lines[j])), None)
        end = next((j for j in range(i, len(lines)) if lines[j] == indent + "}"), None)
        if start is not None and end is not None and start < end:
            yield found[2], [x.strip() for x in lines[start + 1 : end] if x.strip() and not x.strip().startswith("//")]


def shape(body):
    """The body with each name by the order in which it first stands, and each number as one."""
    seen = {}

    def plain(m):
        word = m[0]
        if word in KEYWORDS:
            return word
        if word[0].isdigit():
            return "0"
        if TYPES.match(word):
            return "type"
        return "n%d" % seen.setdefault(word, len(seen))

    return re.sub(r"[A-Za-z_0-9]+", plain, " ".join(body))


def main():
    root = sys.argv[1] if len(sys.argv) > 1 else os.path.join(os.path.dirname(os.path.abspath(__file__)), "..")
    alike = collections.defaultdict(list)
    for path in sorted(glob.glob(os.path.join(root, "crates/*/src/*.rt"))):
        with open(path, encoding="utf-8") as file:
            for name, body in functions(file.read()):
                if len(body) >= LEAST:
                    alike[shape(body)].append("%s::%s" % (os.path.relpath(path, os.path.join(root, "crates")), name))
    groups = [v for v in alike.values() if len(v) > 1]
    for group in sorted(groups):
        print("  ".join(group))
    print("%d groups, %d functions" % (len(groups), sum(map(len, groups))))


main()
