#!/usr/bin/env python3
"""Brings the repository's own names to the spelling of today's Rattle, after the toolchain's port.py.

usage: python3 tools/respell.py [--list]        at the top of the repository, once

- The crate `core` becomes `ledger`, since the toolchain has a library of that name; port.py took its paths for the toolchain's.
- Definitions, lemmas and variables of specs/ and proofs/ go to snake case; hyphens between the parts of a lemma's name stay.
- Names that port.py turned in one file and not in the other are mended, and lemmas that would fall together with a definition
  are named apart.
- In pages and edits only these names and paths change. Functions of src/, C names and strings keep theirs.

--list prints each name beside its new one and writes nothing. Names that would fall together stop the script.
"""
import os
import re
import subprocess
import sys

OLD, NEW = "core", "ledger"
# Names that port.py spelled in one file and not in the other.
MENDED = {
    "Turned-down": "turned_down",
    "All-none": "all_none",
    "All-more": "all_more",
    "held_Fits": "held_fits",
    "Leaves-table": "leaves_table",
    "Ahead-none": "ahead_none",
    "placeOf": "place_of",
    "getD-sets-inside": "get_or-sets-inside",
    "getD-sets-outside": "get_or-sets-outside",
}
# Lemmas and variables that would fall together with the definition that they speak of.
APART = {"not_late": "not_late-each", "neighbours_differ": "neighbours_differ-ordered", "in_order": "in_order-here", "in_use": "in_use-here"}
WORD = re.compile(r"[A-Za-z_][A-Za-z0-9_'′-]*")
OWN = ("money", "rules", "sort", "decoder", "scalars", "core", "ledger", "book", "journal", "daybook", "cases", "exports")


def files(*endings):
    out = subprocess.run(["git", "ls-files", "-co", "--exclude-standard"], capture_output=True, text=True, check=True).stdout
    return [f for f in sorted(set(out.splitlines())) if f.endswith(endings) and os.path.isfile(f)]


def read(path):
    with open(path, encoding="utf-8") as f:
        return f.read()


def write(path, text):
    with open(path, "w", encoding="utf-8") as f:
        f.write(text)


def without_comments(text):
    return re.sub(r"(?m)--.*$", "", text)


def snake(word):
    """The parts of a name between hyphens, each in snake case where it is in camel case."""
    def part(p):
        if not re.match(r"[a-z]", p) or not re.search(r"[a-z0-9][A-Z]", p):
            return p
        p = re.sub(r"([a-z0-9])([A-Z])", r"\1_\2", p)
        p = re.sub(r"([A-Za-z])([0-9])", r"\1_\2", p)
        return p.lower()
    return "-".join(part(p) for p in word.split("-"))


def apart(path, text):
    """Mends what port.py left, before any other name changes."""
    if not path.endswith(".antt"):
        return text
    text = re.sub(r"(?m)--.*$|[A-Za-z_][A-Za-z0-9_'′-]*", lambda m: MENDED.get(m.group(0), m.group(0)), text)
    return re.sub(r"(?m)--.*$|(?<![\w.'-])(%s)(?![\w'-])" % "|".join(APART), lambda m: APART.get(m.group(1), m.group(0)), text)


def names():
    """Every name of the .antt files that changes, with its new one, and those that would fall together."""
    seen, plain, outside = set(), set(), set()
    for path in files(".antt"):
        text = without_comments(apart(path, read(path)))
        for m in re.finditer(r"(?m)^\s*(?:pub )?use ([^\s{]+?)\.\{([^}]*)\}", text):
            own = re.match(r"Rattle[.·](%s|std)\b" % "|".join(OWN), m.group(1))
            if not own:
                outside |= {n.strip().split(" as ")[0] for n in m.group(2).split(",")}
        seen |= set(WORD.findall(text))
        for line in text.splitlines():
            if not re.match(r"\s*(pub )?(use|mod) ", line):
                plain |= {m.group(0) for m in WORD.finditer(line) if m.start() == 0 or line[m.start() - 1] != "."}
    table = {w: snake(w) for w in sorted(seen - outside) if snake(w) != w and not re.match(r"(Need|After|Else)", w)}
    fallen = {}
    for old, new in table.items():
        fallen.setdefault(new, set()).add(old)
        if new in plain:
            fallen[new].add(new)
    together = {n: sorted(o) for n, o in fallen.items() if len(o) > 1}
    return table, together


def modules(kind):
    return sorted(os.path.basename(f)[:-5] for f in os.listdir(f"crates/{OLD}/{kind}") if f.endswith(".antt") and f != "Lib.antt") if os.path.isdir(f"crates/{OLD}/{kind}") else []


def paths(text, own):
    """Paths of the crate that is renamed, told from those of the toolchain's library."""
    for kind in ("specs", "proofs"):
        for m in own[kind]:
            text = re.sub(r"\bRattle\.(?:core|std)\.%s\.%s(?![\w'-])" % (kind, m), f"Rattle.{NEW}.{kind}.{m}", text)
    for m in own["tops"]:
        text = re.sub(r"\bRattle\.(?:core|std)\.proofs\.%s\." % m, f"Rattle.{NEW}.proofs.{m}.", text)
        text = re.sub(r"\bRattle\.(?:core|std)\.specs\.declared\.%s\." % m, f"Rattle.{NEW}.specs.declared.{m}.", text)
    return re.sub(r"\bRattle\.core\.(specs|proofs)\.", r"Rattle.std.\1.", text)


def renamed(text, table):
    return WORD.sub(lambda m: table.get(m.group(0), m.group(0)), text)


def main(argv):
    table, together = names()
    if "--list" in argv:
        for old in sorted(table):
            print(old, table[old])
    if together:
        for new, olds in sorted(together.items()):
            print("falls together:", new, *olds, file=sys.stderr)
        return 1
    if "--list" in argv:
        return 0
    own = {k: modules(k) for k in ("specs", "proofs")}
    own["tops"] = sorted(f[:-3] for f in os.listdir(f"crates/{OLD}/src") if f.endswith(".rt")) if os.path.isdir(f"crates/{OLD}/src") else []
    for path in files(".antt", ".rt", ".edit"):
        text = read(path)
        new = renamed(paths(apart(path, text), own), table)
        if path.endswith((".rt", ".edit")):
            new = re.sub(r"(?<![\w:])core::(?=\{|(%s)\b)" % "|".join(own["tops"]), NEW + "::", new)
        if new != text:
            write(path, new)
    for path in files(".md", ".py"):
        if path.startswith("tools/respell"):
            continue
        text = read(path)
        new = re.sub(r"`([^`\n]+)`", lambda m: "`" + renamed(m.group(1), table) + "`", text) if path.endswith(".md") else text
        if new != text:
            write(path, new)
    if os.path.isdir(f"crates/{OLD}"):
        os.rename(f"crates/{OLD}", f"crates/{NEW}")
        write("crates.txt", re.sub(r"\b%s\b" % OLD, NEW, read("crates.txt")))
    return 0


if __name__ == "__main__":
    raise SystemExit(main(sys.argv[1:]))
