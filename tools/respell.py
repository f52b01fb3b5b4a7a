#!/usr/bin/env python3
"""Spells this repository's own definitions and lemmas in snake case, once, after port.py.

usage: tools/respell.py ROOT [--table]

A name that a file of specs/, or a file right in proofs/, declares is respelled where it begins with a small letter and
has a capital inside or a dash: each hump and each dash becomes an underscore. Names of answers (files of a function's own
folder) stay, since Rattle makes them. A lemma that would meet a definition's name, or another lemma's, gets `_lem`.
It rewrites the .antt files, the clauses and comments of the .rt files, the `old:` and `new:` lines of must-fail edits, and
what stands between backquotes in the pages.
"""

import os
import re
import sys

NAME = r'[^\s(){}.;,@"«»`]+'
DECLARED = re.compile(rf"(?m)^ *(?:pub |abbrev |unfoldable |unfolding |package )*({NAME})(?: \{{[^{{}}\n]*\}})* :(?= |$)")
TOKEN = re.compile(rf'(?<![^\s(){{}}.;,@"«»`])({NAME})(?![^\s(){{}}.;,@"«»`])')
OF_A_FUNCTION = re.compile(r"/proofs/[^/]+/")
# Lemmas that a library has under the same name; files import either.
OF_A_LIBRARY = {"and-false", "or-false", "or-true"}
# Definitions that port.py respelled in some files by themselves.
BY_HAND = {"getD-mem": "get_or_mem", "getD-tab": "get_or_tab", "getD-tab-out": "get_or_tab_out"}


# Lemmas that were in snake case and that a definition now meets; behind a dot the word is a field or a function of the code.
RIVALS = re.compile(
    r"(?<![\w.-])(after_read|all_lines|before_on|by_place|entry_here|in_order|list_left|node_at|one_more|pick_next|ready_of"
    r"|same_left|with_first|within_on|limits_of|some_below)(?![\w.-])"
)


def files(root, endings):
    for top, folders, names in os.walk(root):
        folders[:] = sorted(d for d in folders if d not in ("out", ".git", "target"))
        for name in sorted(names):
            if name.endswith(endings):
                yield os.path.join(top, name)


def read(path):
    with open(path, encoding="utf-8") as f:
        return f.read()


def snake(name):
    words = re.sub(r"(?<=[a-z0-9])[A-Z]", lambda m: "_" + m[0].lower(), name)
    return words.replace("-", "_")


def table(root):
    declared, local, tokens = set(), set(), set()
    for path in files(os.path.join(root, "crates"), ".antt"):
        code = re.sub(r"--[^\n]*", "", read(path))
        (local if OF_A_FUNCTION.search(path) else declared).update(DECLARED.findall(code))
        # A step of a path, as a function's module, takes no name away.
        tokens.update(TOKEN.findall(re.sub(rf"\.(?:{NAME})|\b{NAME}\.", " ", re.sub(r"(?m)^use [^{\n]*", "", code))))
    declared -= OF_A_LIBRARY
    odd = [n for n in declared if n[0].islower() and (re.search(r"[a-z0-9][A-Z]", n) or "-" in n)]
    # What a library's module is called, or a path of a function, is no name of ours.
    new, taken = {}, {t for t in tokens if t not in odd}
    for old in sorted(odd, key=lambda n: ("-" in n, n)):
        to = BY_HAND.get(old, snake(old))
        if "-" not in old:
            taken.discard(to)
        while to in taken:
            to += "_lem"
        taken.add(to)
        new[old] = to
    return new


def main(root):
    new = table(root)
    if "--table" in sys.argv:
        for old, to in sorted(new.items()):
            print(old, to)
        return
    # An operator's name is used in full where it is declared and imported, and in part between its arguments.
    new |= {"◌and-then◌": "◌and_then◌", "and-then": "and_then"}
    put = lambda text: TOKEN.sub(lambda m: new.get(m[1], m[1]), text)
    camel = {o: t for o, t in new.items() if "-" not in o}
    camel_put = lambda text: TOKEN.sub(lambda m: camel.get(m[1], m[1]), text)
    for path in files(os.path.join(root, "crates"), (".antt", ".rt", ".edit")):
        text = read(path)
        if path.endswith(".antt"):
            to = put(RIVALS.sub(r"\1_lem", text))
        elif path.endswith(".edit"):
            to = "".join(put(l) if re.match(r"(old|new):", l) else camel_put(l) for l in text.splitlines(keepends=True))
        else:
            to = "".join(put(l) if re.match(r"ghost use|\s+(requires|ensures)", l) else camel_put(l) for l in text.splitlines(keepends=True))
        if to != text:
            with open(path, "w", encoding="utf-8") as f:
                f.write(to)
    for path in files(root, ".md"):
        if "/tables/" in path:
            continue  # there a name between backquotes is a table's
        text = read(path)
        to = re.sub(r"`[^`\n]+`", lambda m: put(m[0]), text)
        if to != text:
            with open(path, "w", encoding="utf-8") as f:
                f.write(to)


if __name__ == "__main__":
    main(sys.argv[1])
