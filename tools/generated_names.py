#!/usr/bin/env python3
"""Brings the names that the check generates to their spelling in the installed Rattle, in the proofs of functions.

usage: python3 tools/generated_names.py        at the top of the repository, once, after snake_names.py

A word of the source keeps its underscores inside a generated name: 'if-same-pair' becomes 'if-same_pair', and 'in-ok-push' 'in_ok-push'.
"""
import os
import re

FIXED = ["in_ok", "in_err", "in_default", "invariant_of", "overflow_sub", "overflow_add", "overflow_mul", "from_residual", "copy_from_slice", "extend_from_slice", "as_slice", "as_mut_slice", "as_bytes", "split_at", "from_le_bytes", "to_le_bytes", "is_empty", "get_or"]
TOKEN = re.compile(r"[A-Za-z_][\w]*(?:-[\w]+)+")


def identifiers(crate):
    words = set(FIXED)
    for folder, _, names in os.walk(os.path.join(crate, "src")):
        for n in names:
            if n.endswith(".rt"):
                with open(os.path.join(folder, n), encoding="utf-8") as f:
                    words |= set(re.findall(r"\b[A-Za-z]\w*_\w+\b", f.read()))
    return sorted({w for w in words if "__" not in w and not w.endswith("_")}, key=len, reverse=True)


def main():
    for c in sorted(os.listdir("crates")):
        top = os.path.join("crates", c, "proofs")
        words = identifiers(os.path.join("crates", c))
        for folder, _, names in os.walk(top):
            for n in names:
                if n not in ("Answers.antt", "Invariants.antt", "Proof.antt"):
                    continue
                p = os.path.join(folder, n)
                with open(p, encoding="utf-8") as f:
                    text = f.read()

                def one(m):
                    t = m.group()
                    for w in words:
                        t = re.sub(rf"(?<![A-Za-z0-9_]){re.escape(w.replace('_', '-'))}(?![A-Za-z0-9_])", w, t)
                    return t

                generated = {g for g in re.findall(r"\.([A-Za-z][\w]*(?:-[\w]+)+)", text)}
                new = re.sub(r"[A-Za-z_][\w]*(?:-[\w]+)+", lambda m: one(m) if m.group() in generated else m.group(), text)
                if new != text:
                    with open(p, "w", encoding="utf-8") as f:
                        f.write(new)
                    print(p)


main()
