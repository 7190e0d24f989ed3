#!/usr/bin/env python3
"""mutate.py CRATE FOLDER [NUMBER/OF]: wrong rules, one at a time.

Changes one thing in a definition of crates/CRATE/specs (a constant, a comparison, a sign, a connective, a field, an order),
checks the crate with `rt check`, and puts the file back. Works in a copy of the repository, FOLDER, and never in the repository
itself. NUMBER/OF takes every OF-th, from NUMBER on, so that two copies can share the work.

A wrong rule that the crate still proves is a survivor. `mutate.py CRATE FOLDER --on UPPER LIST` tries those of a saved list
against a crate above. Where that takes minutes, `mutate.py CRATE FOLDER --together UPPER ROUNDS` makes all changes of a line of
ROUNDS at once, labels with `;;` between them, and tells which functions and laws then fail: choose changes for a line that no
function has to do with two of.
"""
import os, re, subprocess, sys

SWAPS = [
    ("ltb", "leb"), ("leb", "ltb"), ("eqb", "leb"), ("nat_lt", "nat_le"), ("nat_le", "nat_lt"),
    ("&&", "||"), ("||", "&&"),
    ("+ℤ", "-ℤ"), ("-ℤ", "+ℤ"), ("+", "-"), ("-", "+"), ("*", "+"), ("/", "*"), ("%", "/"), ("min", "max"), ("max", "min"),
    ("true", "false"), ("false", "true"),
    ("Normal", "Suspended"), ("Suspended", "Terminated"), ("Terminated", "Normal"),
    ("Closed", "Paid"), ("Paid", "Trading"), ("Trading", "Closed"),
    ("NotFailed", "FailedOnce"), ("FailedOnce", "FailedTwice"), ("FailedTwice", "FailedOnce"),
    ("NotShort", "ShortOnce"), ("ShortOnce", "ShortTwice"), ("ShortTwice", "ShortThrice"), ("ShortThrice", "ShortTwice"),
    (".own", ".client"), (".client", ".own"), (".today", ".cleared"), (".cleared", ".today"),
    (".effective", ".arriving"), (".arriving", ".effective"), (".frozen", ".effective"),
    (".price", ".fallback"), (".fallback", ".price"), (".first", ".due"), (".due", ".first"), (".kinds", ".units"), (".units", ".kinds"),
    ("pos", "negsuc"), ("take", "drop"), ("drop", "take"), ("none", "some 1"),
]
PRELUDE = "Rattle.std.specs.Prelude"
HOMES = {name: PRELUDE for name in ("ltb", "leb", "nat_lt", "nat_le", "&&", "||", "true", "false", "+", "-", "*", "/", "min", "max", "+ℤ", "-ℤ", "negsuc", "take", "drop")}
EDGE = r"(?<![\w.ℤ·])%s(?![\w'ℤ·])"


def bodies(lines):
    """The lines that define something: no comment, import, signature or record field."""
    for n, line in enumerate(lines):
        text = line.split("--")[0]
        if not text.strip() or re.match(r"\s*(pub )?(use|mod|record|module|abbrev|unfoldable|unfolding|data|infix[lr]?)\b", text):
            continue
        if re.match(r"\s*(pub )?\S+ :", text) or re.match(r"\s+→", text):
            continue
        yield n, text


def mutants(path):
    lines = open(path, encoding="utf-8").read().split("\n")
    found = list(bodies(lines))
    for n, text in found:
        start = text.index(" = ") + 3 if " = " in text and not text.startswith("    ") else 0
        for m in re.finditer(r"(?<![\w.ℤ·])\d+(?![\w.])", text[start:]):
            at = start + m.start()
            yield n, at, m.group(), str(int(m.group()) + 1)
        for old, new in SWAPS:
            pattern = r"%s(?!\w)" % re.escape(old) if old.startswith(".") else (EDGE % re.escape(old) if re.match(r"\w", old) else r"(?<= )%s(?= )" % re.escape(old))
            for m in re.finditer(pattern, text[start:]):
                yield n, start + m.start(), old, new
        for m in re.finditer(r"\bnot (?=\()", text[start:]):
            yield n, start + m.start(), "not ", ""
    # two neighbours of a list in the other order
    for (n, text), (k, after) in zip(found, found[1:]):
        if k == n + 1 and re.match(r"\s+∷ ", text) and re.match(r"\s+∷ ", after) and after.strip() != "∷ []":
            yield n, -1, "order", "order"


def with_use(lines, home, name):
    """The lines with a name of a library in scope."""
    for i, line in enumerate(lines):
        if line.startswith("use %s.{" % home):
            names = [x.strip() for x in line[line.index("{") + 1:line.rindex("}")].split(",")]
            if name not in names:
                lines[i] = line[:line.rindex("}")] + ", " + name + "}"
            return
    lines.insert(next(i for i, line in enumerate(lines) if line.startswith("use ")), "use %s.{%s}" % (home, name))


def changed(text, changes):
    lines = text.split("\n")
    for n, at, old, new in sorted(changes, key=lambda m: (m[0], -m[1])):
        if at < 0:
            lines[n], lines[n + 1] = lines[n + 1], lines[n]
        else:
            lines[n] = lines[n][:at] + new + lines[n][at + len(old):]
    for n, at, old, new in changes:
        if new in HOMES:
            with_use(lines, HOMES[new], new if re.match(r"\w", new) else "◌%s◌" % new)
    return "\n".join(lines)


def check(folder, crate):
    done = subprocess.run(["rt", "check"], cwd=os.path.join(folder, "crates", crate), capture_output=True, text=True, errors="replace")
    return done.returncode, done.stdout + done.stderr


def verdict(folder, crate):
    code, said = check(folder, crate)
    if code == 0:
        return "survived"
    if re.search(r"specs/\S+\.antt:\d+:\d+: (error|unsolved)", said) or "logic=not-proved" not in said:
        return "ill-formed"
    return "refused"


def unproved(folder, crate):
    """The functions that are not proved for a reason of their own, and the files in which something fails."""
    code, said = check(folder, crate)
    functions = re.findall(r"^fn (\S+): (?:not proved|no proof)(?!.*it calls)", said, re.M)
    files = sorted(set(re.findall(r"^\./(proofs/\S+\.antt):\d+:\d+: error", said, re.M)))
    return " ".join(functions or ["none"]) + "\t" + " ".join(files)


def label(name, mutant):
    n, at, old, new = mutant
    return "%s:%d:%d %s -> %s" % (name, n + 1, at + 1, old, new.strip() or "nothing")


def tried(folder, found, labels, judge):
    """Makes the labelled changes at once, asks the judge, and puts the files back."""
    paths = {}
    for text in labels:
        path, mutant = found[text]
        paths.setdefault(path, []).append(mutant)
    before = {path: open(path, encoding="utf-8").read() for path in paths}
    for path, changes in paths.items():
        open(path, "w", encoding="utf-8").write(changed(before[path], changes))
    try:
        return judge()
    finally:
        for path, text in before.items():
            open(path, "w", encoding="utf-8").write(text)


def main():
    crate, folder = sys.argv[1:3]
    specs = os.path.join(folder, "crates", crate, "specs")
    names = [name for name in sorted(os.listdir(specs)) if name != "Lib.antt"]
    found = {label(name, m): (os.path.join(specs, name), m) for name in names for m in mutants(os.path.join(specs, name))}
    way = sys.argv[3] if len(sys.argv) > 3 else "0/1"
    if way == "--together":
        for line in open(sys.argv[5], encoding="utf-8"):
            labels = [text.strip() for text in line.split(";;")]
            print("%s\t%s" % (tried(folder, found, labels, lambda: unproved(folder, sys.argv[4])), " ;; ".join(labels)), flush=True)
        return
    if way == "--on":
        upper = sys.argv[4]
        labels = [line.split("\t")[1].strip() for line in open(sys.argv[5], encoding="utf-8") if line.startswith("survived")]
    else:
        upper = crate
        part, of = (int(x) for x in way.split("/"))
        labels = [text for i, text in enumerate(found) if i % of == part]
    for text in labels:
        print("%s\t%s" % (tried(folder, found, [text], lambda: verdict(folder, upper)), text), flush=True)


main()
