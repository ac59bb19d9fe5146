#!/usr/bin/env python3
"""Respells, in proof files, the names that the language makes of a function's steps and goals: a name from the source keeps its
spelling in them, and so do the language's own words.

usage: python3 tools/respell_labels.py          at the top of the repository, once, after respell_names.py
"""

import re
import sys

from respell_names import files, read

KNOWN = """overflow_add overflow_sub overflow_mul overflow_cast overflow_step overflow_shl overflow_shr invariant_of in_err in_ok in_default slice_bounds
nonzero_div nonzero_rem offset_bounds prove_unreachable split_at is_empty is_ascii_digit as_slice copy_from_slice from_be_bytes to_be_bytes
from_residual is_some is_none is_ok is_err then_some count_ones as_ref split_first type_inv well_formed""".split()


def main():
    names = set(KNOWN)
    for path in files(".rt"):
        for line in read(path).split("\n"):
            if not line.lstrip().startswith(("//", "ghost", "ensures", "requires")):
                names.update(re.findall(r"\b[a-z][a-z0-9]*(?:_[a-z0-9]+)+\b", line))
    dashed = sorted((n.replace("_", "-") for n in names), key=lambda n: -len(n))
    pattern = re.compile(r"(?<![A-Za-z0-9_])(?:" + "|".join(map(re.escape, dashed)) + r")(?![A-Za-z0-9_])")

    def label(text):
        return pattern.sub(lambda m: m.group(0).replace("-", "_"), text)

    word = r"[A-Za-z][A-Za-z0-9_'\u00b7+-]*"
    for path in files(".antt"):
        if "/proofs/" not in path:
            continue
        text = read(path)
        heads = {h for h in re.findall(r"(?m)^(?:abbrev )?pub (%s) : goal\." % word, text) if "-" in h}
        new = re.sub(r"(?<=\.)%s" % word, lambda m: label(m.group(0)), text)
        if re.search(r"\.Goals\.\{", text):
            lists = [w for names in re.findall(r"\.Goals\.\{([^}]*)\}", text) for w in names.split(", ")]
            for name in lists:
                if label(name) != name:
                    new = re.sub(r"(?<![A-Za-z0-9_'+.-])%s(?![A-Za-z0-9_'+-])" % re.escape(name), lambda m: label(name), new)
        if heads:
            new = re.sub(r"(?m)^((?:abbrev )?(?:pub )?)(%s)" % word, lambda m: m.group(1) + (label(m.group(2)) if m.group(2) in heads else m.group(2)), new)
        if new != text:
            with open(path, "w", encoding="utf-8") as f:
                f.write(new)
    return 0


if __name__ == "__main__":
    sys.exit(main())
