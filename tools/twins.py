#!/usr/bin/env python3
"""twins.py FOLDER [CRATE..]: the twins of the must-fail edits, one at a time.

A must-fail edit that is refused may only no longer fit its proof. Its twin, crates/CRATE/twins/NAME.edit, is an edit of the same
place that changes nothing: it must be proved. Each is made in a copy of the repository, FOLDER, checked with `rt check`, and undone.
An edit that has no twin, and a twin that has no edit, is named. The exit status is 0 only where every edit has a twin that is proved.
"""
import glob, os, shutil, subprocess, sys


def edits(path):
    """The file, the old text and the new one of each change."""
    file = old = None
    for line in open(path, encoding="utf-8").read().split("\n"):
        word, _, text = line.partition(": ")
        if word == "file":
            file = text
        elif word == "old":
            old = text
        elif word == "new":
            yield file, old, text


def proved(folder, crate, path):
    kept = {}
    try:
        for file, old, new in edits(path):
            place = f"{folder}/crates/{crate}/{file}"
            text = open(place, encoding="utf-8").read()
            kept.setdefault(place, text)
            if text.count(old) != 1:
                sys.exit(f"{path}: its old text is not in {file} once")
            with open(place, "w", encoding="utf-8") as out:
                out.write(text.replace(old, new))
        return subprocess.run(["rt", "check"], cwd=f"{folder}/crates/{crate}", capture_output=True).returncode == 0
    finally:
        for place, text in kept.items():
            with open(place, "w", encoding="utf-8") as out:
                out.write(text)


def main():
    root = os.path.dirname(os.path.dirname(os.path.abspath(__file__)))
    if len(sys.argv) < 2 or os.path.realpath(sys.argv[1]) == os.path.realpath(root):
        sys.exit("usage: twins.py FOLDER [CRATE..], FOLDER another than the repository")
    folder, wanted = sys.argv[1], sys.argv[2:]
    os.makedirs(folder, exist_ok=True)
    shutil.rmtree(f"{folder}/crates", ignore_errors=True)
    shutil.copytree(f"{root}/crates", f"{folder}/crates")
    shutil.copy(f"{root}/crates.txt", folder)
    failed = 0
    for crate in sorted(os.listdir(f"{root}/crates")):
        if wanted and crate not in wanted:
            continue
        names = {os.path.basename(edit) for kind in ("must-fail", "twins") for edit in glob.glob(f"{root}/crates/{crate}/{kind}/*.edit")}
        for name in sorted(names):
            twin = f"{root}/crates/{crate}/twins/{name}"
            if not os.path.exists(twin):
                said = "no twin"
            elif not os.path.exists(f"{root}/crates/{crate}/must-fail/{name}"):
                said = "no edit"
            else:
                said = "proved" if proved(folder, crate, twin) else "REFUSED"
            failed += said != "proved"
            print(f"{crate}/{name[:-5]}: {said}", flush=True)
    sys.exit(failed > 0)


main()
