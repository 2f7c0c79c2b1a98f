#!/usr/bin/env python3
"""Brings the repository's own definitions and lemmas to snake case, as the installed Rattle writes them.

usage: python3 tools/snake_names.py [--check]      at the top of the repository, after the kit's port.py

'setOf' becomes 'set_of' and 'sent-at' becomes 'sent_at', in specs/, proofs/, the clauses of src/ and must-fail edits, and in the code spans of docs.
What the check generates for a function ('returns-in-Ok', 'loop-way') keeps its hyphens, and so does a name of the library. Functions of src/, strings,
inputs and outputs are not touched. Two names that would fall together are told apart by RENAMED.
"""
import collections
import os
import re
import sys

# Names that would fall together with another: what the second of them is called now.
RENAMED = {
    "is-head": "is_head_holds",
    "lost-upgrade": "lost_upgrade_holds",
    "mail-slot": "mail_slot_holds",
    "no-commands": "no_commands_hold",
    "no-memory-commands": "no_memory_commands_hold",
    "no-responses": "no_responses_hold",
    "owned-upgrade": "owned_upgrade_holds",
    "read-row": "read_row_holds",
    "round-one": "round_one_holds",
    "sole-holder": "sole_holder_holds",
    "state-at": "state_at_holds",
    "under-mesi": "under_mesi_holds",
    "write-row": "write_row_holds",
    "writes-back": "writes_back_holds",
    "linesAfter": "lines_after_head",
}
# Names that the check generates, and some files have without a dot before them.
GENERATED = {"in-Some", "in-default"}
SKIP_DIRS = {"out", "target", ".git"}
TOKEN = re.compile(r"""[^\s(){}.;,@"«»:⌜⌝|&\[\]`]+""")
CAMEL = re.compile(r"[a-z][a-z0-9]*([A-Z]+[a-z0-9]*)+['₀-₉]*")
KEBAB = re.compile(r"[A-Za-z][\w]*(-[\w]+)+['₀-₉]*")


def snake(name):
    if name in RENAMED:
        return RENAMED[name]
    name = re.sub(r"(?<=[a-z0-9])([A-Z])", lambda m: "_" + m.group(1).lower(), name) if CAMEL.fullmatch(name) or "-" not in name else name
    if "-" in name:
        name = re.sub(r"(?<=[a-z0-9])([A-Z])(?=[a-z])", lambda m: "_" + m.group(1).lower(), name).replace("-", "_")
    return name


def files():
    for top in ("crates",):
        for folder, dirs, names in os.walk(top):
            dirs[:] = sorted(d for d in dirs if d not in SKIP_DIRS)
            for n in sorted(names):
                if n.endswith((".antt", ".rt", ".edit")):
                    yield os.path.join(folder, n)


# The parts of a text in which names turn: in .antt all but strings, in .rt what stands in ghost items and clauses.
RT_PARTS = re.compile(r"ghost\s+use\b[^;]*;|(?:requires|ensures)\s*\*?\s*(?:\w+\s*)?\{|ghost\s*(?:\w+\s*(?::\s*(?:(?:owns|lends)\s*)?|=\s*))?\{|#\[tactic[^\]]*\]")


def rt_parts(text):
    for m in RT_PARTS.finditer(text):
        if m.group().endswith("{") and not m.group().startswith("ghost use"):
            depth, i = 1, m.end()
            while depth and i < len(text):
                depth += {"{": 1, "}": -1}.get(text[i], 0)
                i += 1
            yield m.start(), i
        else:
            yield m.start(), m.end()


STRING = re.compile(r'"(?:[^"\\\n]|\\.)*"')


def turn_text(text, table):
    def one(m):
        return table.get(m.group(), m.group())

    out, last = [], 0
    for s in STRING.finditer(text):
        out += [TOKEN.sub(one, text[last:s.start()]), s.group()]
        last = s.end()
    return "".join(out) + TOKEN.sub(one, text[last:])


def names_of(root_files):
    """The names to turn: every one in camel case, and those with hyphens that are neither the library's nor generated."""
    camel, kebab, kept = set(), collections.defaultdict(set), set()
    for p in root_files:
        with open(p, encoding="utf-8") as f:
            text = f.read()
        if not p.endswith(".antt"):
            for a, b in rt_parts(text):
                camel |= {w for w in TOKEN.findall(text[a:b]) if CAMEL.fullmatch(w)}
            continue
        text = re.sub(r"--[^\n]*", "", STRING.sub("", text))
        for m in re.finditer(r"^use Rattle\.(std|core)\.[^\n]*?\{([^}]*)\}", text, re.M):
            for item in m.group(2).split(","):
                kept.add(item.split(" as ")[-1].strip() if " as " not in item else item.split(" as ")[0].strip())
        for m in re.finditer(r"\b(?:goal|given)\.([\w-]+)", text):
            kept.add(m.group(1))
        for m in TOKEN.finditer(text):
            w = m.group()
            if CAMEL.fullmatch(w):
                camel.add(w)
            elif KEBAB.fullmatch(w):
                kebab[w].add((p, text[m.start() - 1:m.start()] == "."))
    dotted = {w for w, uses in kebab.items() if all(d for _, d in uses)}
    kept |= GENERATED
    return camel - kept, {w for w in kebab if w not in kept and w not in dotted}, kept, {w for w in kebab if w not in kept and any(d for _, d in kebab[w])}


def main(argv):
    all_files = list(files())
    camel, kebab, kept, dotted = names_of(all_files)
    table = {w: snake(w) for w in camel | kebab}
    by_new = collections.defaultdict(set)
    for old, new in table.items():
        by_new[new].add(old)
    # names that are in snake case already
    present = collections.Counter()
    for p in all_files:
        if p.endswith(".antt"):
            with open(p, encoding="utf-8") as f:
                for m in re.finditer(r"^\s*(?:abbrev |unfoldable |pub |instance )*([a-z]\w*_\w*) +:", f.read(), re.M):
                    present[m.group(1)] += 1
    if "--check" in argv:
        print("dotted:", sorted(dotted))
        for new, olds in sorted(by_new.items()):
            if len(olds) > 1 or new in present:
                print("together:", new, sorted(olds), "declared" if new in present else "")
        print("kept:", sorted(k for k in kept if "-" in k))
        return 0
    for p in all_files:
        with open(p, encoding="utf-8") as f:
            text = f.read()
        if p.endswith(".rt"):
            out, last = [], 0
            for a, b in rt_parts(text):
                if a < last:
                    continue
                out += [text[last:a], turn_text(text[a:b], table)]
                last = b
            new = "".join(out) + text[last:]
        elif p.endswith(".edit"):
            new = turn_text(text, {k: v for k, v in table.items() if k in camel})
        else:
            new = turn_text(text, table)
        if new != text:
            with open(p, "w", encoding="utf-8") as f:
                f.write(new)
    for folder in (".", "docs", "sheets"):
        for n in sorted(os.listdir(folder)):
            p = os.path.join(folder, n)
            if n.endswith(".md"):
                with open(p, encoding="utf-8") as f:
                    text = f.read()
                new = re.sub(r"`[^`\n]*`", lambda m: turn_text(m.group(), {k: v for k, v in table.items() if k in camel}), text)
                if new != text:
                    with open(p, "w", encoding="utf-8") as f:
                        f.write(new)
    print(len(table), "names")
    return 0


if __name__ == "__main__":
    raise SystemExit(main(sys.argv[1:]))
