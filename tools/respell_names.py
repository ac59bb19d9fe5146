#!/usr/bin/env python3
"""Respells this repository's own names as today's language spells them: words in snake case, types and facts in camel case.

usage: python3 tools/respell_names.py          at the top of the repository, once, after the kit's port script

It collects the names that the files of specs/ and proofs/ declare or bind with a dash, and rewrites each, as a whole word, in
.antt files, in the clauses of .rt files, in the text of must-fail edits, and between backquotes in docs. Goals' names, which
the language makes, stay. It prints names that would fall together with others, and then changes nothing.
"""

import os
import re
import sys

WORD = r"[A-Za-z\u25cc][^\s(){}\[\];,.:\"\\\u03bb\u00ab\u00bb@|`]*"
TOKEN = re.compile(WORD)
SIGNATURE = re.compile(r"^\s*(?:pub )?(?:abbrev |unfoldable )?(?:pub )?((?:%s\s+)+):(?:\s|$)" % WORD)
TYPE = re.compile(r"^\s*(?:pub )?(?:record|data) (%s)" % WORD)
LET = re.compile(r"\blet (%s)" % WORD)
BINDER = re.compile(r"[({]((?:%s\s+)+): " % WORD)
LAMBDA = re.compile(r"\u03bb ((?:%s ?)+)\." % WORD)
PIECES = re.compile(r'//[^\n]*|b?"(?:\\.|[^"\\])*"|[^"/]+|/')


def files(*endings):
    for folder, dirs, names in os.walk("."):
        dirs[:] = sorted(d for d in dirs if d not in ("out", "target", ".git", "tools"))
        for name in sorted(names):
            if name.endswith(endings):
                yield os.path.join(folder, name)


def read(path):
    with open(path, encoding="utf-8") as f:
        return f.read()


def declared(line):
    """The names that a line of an .antt file declares or binds, goals' answers left out."""
    found = TYPE.findall(line)
    signature = SIGNATURE.match(line)
    if signature and "goal." not in line and "given." not in line:
        found += signature.group(1).split()
    found += LET.findall(line)
    for group in BINDER.findall(line) + LAMBDA.findall(line):
        found += group.split()
    return found


def respelled(name):
    if name[0].isupper():
        return "".join(part[:1].upper() + part[1:] for part in name.split("-"))
    return name.replace("-", "_")


def collect():
    names, words = {}, set()
    for path in files(".antt"):
        for line in read(path).split("\n"):
            code = re.sub(r"(^|\s)--(\s.*|$)", "", line)
            words.update(TOKEN.findall(code))
            for name in declared(code):
                if "-" in name.strip("-"):
                    names[name] = respelled(name)
                    if name[0] == "\u25cc":
                        names[name.strip("\u25cc")] = respelled(name.strip("\u25cc"))
    return names, words


def main():
    names, words = collect()
    clashes = sorted(n for n, to in names.items() if to in words)
    targets = {}
    for name, to in names.items():
        targets.setdefault(to, []).append(name)
    clashes += sorted(to for to, from_ in targets.items() if len(from_) > 1)
    if clashes and "--anyway" not in sys.argv:
        print("fall together:", *clashes)
        return 1

    def change(text):
        return TOKEN.sub(lambda m: names.get(m.group(0), m.group(0)), text)

    for path in files(".antt", ".rt", ".edit", ".md"):
        text = read(path)
        if path.endswith(".md"):
            new = re.sub(r"`[^`\n]+`", lambda m: change(m.group(0)), text)
        elif path.endswith(".rt"):
            new = PIECES.sub(lambda m: m.group(0) if m.group(0)[:2] in ("//", 'b"') or m.group(0)[0] == '"' else change(m.group(0)), text)
        else:
            new = change(text)
        if new != text:
            with open(path, "w", encoding="utf-8") as f:
                f.write(new)
    print(len(names), "names")
    return 0


if __name__ == "__main__":
    sys.exit(main())
