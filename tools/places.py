#!/usr/bin/env python3
"""Counts the places in src/ that may be written in a newer form, by kind.

    python3 tools/places.py          the counts
    python3 tools/places.py -l       the counts, and each place with its line
    python3 tools/places.py -l 3     the same of one kind

A place is a candidate: a reader decides whether it is one. A comment does not count.
"""
import collections
import pathlib
import re
import sys

# name of the kind, and patterns over the text of a file without its comments
KINDS = {
    "1a enums": [r"^ *(?:pub(?:\(crate\))? )?enum \w+"],
    "1b kinds as numbers": [
        r"\b(?:class|kind|zero): (?:u8|\(?u8)",
        r"\b(?:Option|Result)<u8\b",
        r"\bclass (?:==|!=) \d",
        r"0x4C|0x54(?=,)",
    ],
    "1c passed on by hand": [
        r"\bNone => (?:return )?(?:None|Err\(|true|false|Ok\(None)",
        r"\bSome\(_?\w*\) => (?:Some\(|Ok\(|None)",
        r"\bErr\(\w+\) => (?:return )?(?:Err\(|\{)",
        r"\bErr\(_\) => (?:Ok\(|Err\(|\{|false)",
        r"\bErr\(\w+\) => Reply",
        r"else \{\s*return (?:None|Err\([^;]*\)|Ok\(None\));\s*\}(?=)",
        r"if let (?:Err|Some|Ok)\(",
        r"\.is_(?:err|none)\(\) \{",
        r"\{ None \} else \{ Some\(|\{ Some\([^}]*\) \} else \{ None \}",
        r"Some\([^;{}]*\)\s*\} else \{\s*None\s*\}",
    ],
    "1d flags": [r"\b\w+: bool\b"],
    "1e nought for none": [
        r"\b(?:after|before|source|last|first|second|root|number|link|\*?place|\*link) (?:==|!=) 0\b"
    ],
    "3 loops by index or by hand": [
        r"\bfor \w+ in [^{\n]*\.\.",
        r"\bwhile ",
        r"\bloop \{",
        r"\.enumerate\(\)",
    ],
    "4a numbers cast": [r" as (?:u8|u16|u32|u64|usize)\b"],
    "4b written by hand": [
        r"\bfn (?:is|eq|cmp|clone|told|cause|number|letter|class_of|letter_of|text_of|marks_in|begins|say_refused)\b",
        r"self\.\w+ == \w+ && self\.",
    ],
    "6 arrays in structs": [r"^ +(?:pub(?:\(crate\))? )?\w+: \[\w+; \w+\],"],
    "7 steps chosen": [r"\bfn\(", r"\bdyn\b", r"\w+\((?:[^()]*, )?(?:true|false)\)"],
}

GROUPS = {
    "5a roads, from, to": r"roads: Roads[^,]*,\s*from: \w+,\s*to: \w+",
    "5b book, listed": r"book: &\[u16\],\s*listed: usize",
    "5c measure and labels or costs": r"measure: &M,(?:[^)]*?)(?:labels|costs|table): &(?:mut )?\[M::Cost\]",
    "5d buffer, at": r"buffer: &mut \[u8[^\]]*\](?:,\s*(?:at|from): usize)|at: usize,\s*buffer: &mut",
    "5e into, out, letter, extra": r"into: \w+,\s*out: \w+,\s*letter: \w+,\s*extra: \w+",
    "5f class, extra": r"class: u8,\s*extra: u32",
    "5g start, end, length, tightness": r"start: \w+,\s*end: \w+,\s*length: \w+,\s*tightness: \w+",
}


def bare(text):
    """The text with each comment blanked, so that lines keep their numbers."""
    return re.sub(r"//[^\n]*", lambda m: " " * len(m.group()), text)


def code(text):
    """The text without contracts and ghost lines too."""
    text = bare(text)
    text = re.sub(r"^ghost [^\n]*", lambda m: " " * len(m.group()), text, flags=re.M)
    return re.sub(r"^ +(?:ensures|requires|ghost)\b[^\n]*(?:\n {8,}[^\n]*\}\s*$)*",
                  lambda m: re.sub(r"[^\n]", " ", m.group()), text, flags=re.M)


def places(patterns, text):
    found = set()
    for pattern in patterns:
        for match in re.finditer(pattern, text, flags=re.M):
            found.add(text.count("\n", 0, match.start()) + 1)
    return sorted(found)


def clauses(text):
    """Each clause of a file, spelled in one way."""
    for match in re.finditer(r"^ +(requires|ensures)(?: \w+)? \{(.*?)\}\s*$", bare(text), flags=re.M | re.S):
        if "\n\n" not in match.group(2):
            yield match.group(1) + " " + " ".join(match.group(2).split())


def main():
    wanted = sys.argv[2] if len(sys.argv) > 2 else ""
    listed = "-l" in sys.argv
    files = sorted(pathlib.Path("crates").glob("*/src/**/*.rt"))
    texts = {f: f.read_text() for f in files}
    for kind, patterns in list(KINDS.items()) + [(k, [p]) for k, p in GROUPS.items()]:
        hits = [(f, line) for f in files for line in places(patterns, code(texts[f]))]
        print(f"{len(hits):5}  {kind}")
        if listed and kind.startswith(wanted):
            for f, line in hits:
                print(f"         {f}:{line}: {texts[f].splitlines()[line - 1].strip()}")
    count = collections.Counter(c for f in files for c in clauses(texts[f]))
    often = [(n, c) for c, n in count.most_common() if n >= 3]
    print(f"{len(often):5}  5h clauses that stand three times or more")
    if listed and "5h".startswith(wanted[:2]):
        for n, clause in often:
            print(f"         {n} times: {clause}")
    proofs = [f for f in pathlib.Path("crates").glob("*/proofs/**/*.antt")]
    lines = sum(f.read_text().count("\n") for f in proofs)
    print(f"{len(proofs):5}  8 proof files, of {lines} lines")


if __name__ == "__main__":
    main()
