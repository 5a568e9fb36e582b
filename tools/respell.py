#!/usr/bin/env python3
"""Brings the repository's own definitions and lemmas to the library's spelling: words in snake case.

usage: tools/respell.py [--list]

Run it once, at the top, after port.py. It turns each name that begins with a small letter and that a file of specs/ or a
file of lemmas in proofs/ declares, as `isWidth` or `first-run`, to `is_width` and `first_run`: in every .antt file, in the
clauses and `ghost use` lines of .rt files, in the edits and in the documents' code. Names that would fall together, or that
something else in a file has, get an ending: a lemma `_lem`, a definition `_of`. A name that an import gives by `as` is turned
in its file. --list prints the names and writes nothing.
"""

import collections
import os
import re
import sys

WORD = re.compile(r'[^\s(){}.;,@"«»:\[\]|`]+')
DECLARED = re.compile(
    r"(?m)^ *(?:abbrev |unfoldable |pub |data |record )*([^\s(){}.;,:\"]+)"
    r"(?:(?: \{[^{}\n]*\})|(?: \([^()\n]*\)))* :(?= |$)"
)
# A name that stands for something: neither a field nor a part of a path.
NAMED = re.compile(r'(?:^|(?<=[\s(){};,@"«»:\[\]|`]))([^\s(){}.;,@"«»:\[\]|`]+)')
PATH = re.compile(r"(?m)^ *use [^\s{]+")
COMMENT = re.compile(r"(?m)(?:^|(?<=\s))--(?:\s.*)?$")
WORDS = {"abbrev", "unfoldable", "pub", "data", "record", "module", "let", "in", "where", "elim", "as"}
IMPORT = re.compile(r"\buse (\w+)\.(\w+)[^\s{;]*\.\{([^}]*)\}")
# Several constructors or fields of one type, as `inTests atThen : ..`.
SEVERAL = re.compile(r"(?m)^ +((?:[^\s(){}.;,:\"=→λ]+ )+[^\s(){}.;,:\"=→λ]+) :(?= )")
# A function's proof: what it declares is named after the code.
OF_CODE = re.compile(r"/proofs/.+/(Proof|Answers|Invariants)\.antt$")
CLAUSE = re.compile(r"\b(?:requires|ensures|ghost)\b[^{;]*\{")
USE = re.compile(r"ghost\s+use\b[^;]*;", re.S)
BOUND = re.compile(r"\b(?:ensures|requires|let|let mut)\s+(\w+)|\b(\w+)\s*:(?!:)")


def snake(name):
    words = re.sub(r"(?<=[a-z0-9₀-₉])[A-Z]", lambda m: "_" + m[0].lower(), name)
    return words.replace("-", "_")


def read(path):
    with open(path, encoding="utf-8") as f:
        return f.read()


def paths():
    for folder, dirs, files in os.walk("."):
        dirs[:] = sorted(d for d in dirs if d not in ("out", "target", ".git"))
        for name in sorted(files):
            yield os.path.join(folder, name)


def clauses(text):
    """The spans of a .rt file that are antt: `ghost use` items and what stands between a clause's braces."""
    spans = [m.span() for m in USE.finditer(text)]
    for m in CLAUSE.finditer(text):
        depth, at = 1, m.end()
        while depth and at < len(text):
            depth += (text[at] == "{") - (text[at] == "}")
            at += 1
        spans.append((m.end(), at))
    return sorted(spans)


def table(texts):
    declared, has, bound = collections.defaultdict(set), collections.defaultdict(set), {}
    for path, text in texts.items():
        if path.endswith(".antt"):
            for m in NAMED.finditer(PATH.sub("use ", COMMENT.sub("", text))):
                has[m[1]].add(path)
            if not OF_CODE.search(path):
                for m in DECLARED.finditer(text):
                    declared[m[1]].add(path)
                for m in SEVERAL.finditer(text):
                    for name in m[1].split():
                        if name not in WORDS:
                            declared[name].add(path)
        else:
            for a, b in clauses(text):
                for m in WORD.finditer(text[a:b]):
                    has[m[0]].add(path)
            bound[path] = {w for m in BOUND.finditer(text) for w in m.groups() if w}
    turned = {}
    names = [n for n in declared if re.match(r"[a-z]", n) and snake(n) != n]
    # Definitions first, so that they get the plain name.
    for name in sorted(names, key=lambda n: ("-" in n, n)):
        ending = "_lem" if "-" in name else "_of"
        new = snake(name)
        while (
            new in turned.values()
            or new in declared
            or has[new] & has[name]
            or any(new in bound.get(p, ()) for p in has[name])
        ):
            new += ending
        turned[name] = new
    return turned


def lent(text):
    """The names that a file imports from a library."""
    own = set(os.listdir("crates"))
    names = set()
    for m in IMPORT.finditer(text):
        if not (m[1] == "Rattle" and m[2] in own):
            names |= {w for item in m[3].split(",") for w in item.split()[-1:]}
    return names


def aliases(text):
    """The names that a file's imports give by `as`, each with its new spelling."""
    items = (i.split(" as ") for m in IMPORT.finditer(text) for i in m[3].split(","))
    given = {i[1].strip() for i in items if len(i) == 2}
    words = set(WORD.findall(text))
    return {n: snake(n) for n in given if re.match(r"[a-z]", n) and snake(n) not in words}


def turn(text, turned, kept=()):
    """The text with its names turned; in comments only those in code spans."""
    one = lambda part: WORD.sub(lambda m: m[0] if m[0] in kept else turned.get(m[0], m[0]), part)
    out = []
    for line in text.split("\n"):
        comment = re.search(r"(?:^|(?<=\s))(?:--|//)(?=\s)", line)
        code, said = (line[: comment.start()], line[comment.start() :]) if comment else (line, "")
        spans = re.split(r"(`[^`]*`)", said)
        out.append(one(code) + "".join(one(s) if s.startswith("`") else s for s in spans))
    return "\n".join(out)


def main(argv):
    texts = {p: read(p) for p in paths() if "/crates/" in p and p.endswith((".antt", ".rt"))}
    turned = table(texts)
    if "--list" in argv:
        for name, new in sorted(turned.items()):
            print(f"{name}\t{new}")
        return
    for path in list(paths()):
        if path.endswith((".antt", ".edit")) and "/crates/" in path:
            old = read(path)
            new = turn(turn(old, turned, lent(old)), aliases(old) if path.endswith(".antt") else {})
        elif path.endswith(".rt"):
            old, new, last = texts[path], "", 0
            kept = lent(old)
            for a, b in clauses(old):
                if a >= last:
                    new += old[last:a] + turn(turn(old[a:b], turned, kept), aliases(old))
                    last = b
            new += old[last:]
        elif path.endswith(".md"):
            old = read(path)
            new = re.sub(r"`[^`\n]+`", lambda m: turn(m[0], turned), old)
        else:
            continue
        if new != old:
            with open(path, "w", encoding="utf-8") as f:
                f.write(new)


if __name__ == "__main__":
    main(sys.argv[1:])
