#!/usr/bin/env python3
"""Says which edits of must-fail/ and faults/ fit the text as it stands: it applies each to its crate's files in memory, and checks nothing.

usage: python3 tools/check_edits.py [--quiet] [NAME | NAME/LABEL]..        at the top of the repository; without names: all edits

An edit fits where each of its files is there, and each 'old:' text stands in it exactly once, behind the pairs before it. A ⏎ in a text of
faults/ ends a line; one of must-fail/ has none. A line for each edit, 'fits' or 'does not fit' with the reason; --quiet leaves out those
that fit. The last line is 'N fit, M do not', and it exits 1 where M is not 0.
"""
import os
import sys

KINDS = ("must-fail", "faults")
PLACES = ("src/", "specs/", "proofs/")


def edits(root):
    """Each edit: its crate, its kind, its label, its path."""
    crates = os.path.join(root, "crates")
    for crate in sorted(os.listdir(crates)):
        for kind in KINDS:
            folder = os.path.join(crates, crate, kind)
            for name in sorted(os.listdir(folder)) if os.path.isdir(folder) else []:
                if name.endswith(".edit"):
                    yield crate, kind, name[: -len(".edit")], os.path.join(folder, name)


def times(text, part):
    """How often the part stands in the text, places that overlap counted too."""
    n, at = 0, text.find(part)
    while at >= 0:
        n, at = n + 1, text.find(part, at + 1)
    return n


def wrong(crate, kind, path):
    """Why the edit does not fit the files in the folder of its crate, or nothing."""
    with open(path, encoding="utf-8", newline="") as it:
        lines = it.read().split("\n")
    texts, name, old, pairs = {}, "", None, 0
    for n, line in enumerate(lines, 1):
        if line.startswith("file: "):
            name = line[len("file: ") :]
            if not name.startswith(PLACES) or ".." in name or not os.path.isfile(os.path.join(crate, name)):
                return f"line {n}: no file {name} in the crate"
        elif line.startswith("old: "):
            if old is not None:
                return f"line {n}: an 'old:' behind another"
            old = line[len("old: ") :]
        elif line.startswith("new:"):
            new = line[len("new:") :].removeprefix(" ")
            if old is None or not name:
                return f"line {n}: a 'new:' without an 'old:' or a 'file:'"
            if kind == "faults":
                old, new = old.replace("⏎", "\n"), new.replace("⏎", "\n")
            elif "⏎" in old + new:
                return f"line {n}: a text of more than one line in must-fail/"
            if name not in texts:
                with open(os.path.join(crate, name), encoding="utf-8", newline="") as it:
                    texts[name] = it.read()
            found = times(texts[name], old) if old else 0
            if found != 1:
                return f"line {n - 1}: the text stands {found} times in {name}: {old!r}"
            if old == new:
                return f"line {n}: the pair changes nothing"
            texts[name] = texts[name].replace(old, new)
            old, pairs = None, pairs + 1
        elif line and not line.startswith(("#", "weakens: ", "above: ")):
            return f"line {n}: not a line of an edit: {line!r}"
    if old is not None:
        return "an 'old:' without a 'new:'"
    return "" if pairs else "no pair of 'old:' and 'new:'"


def main(argv):
    quiet = "--quiet" in argv
    asked = [a for a in argv if a != "--quiet"]
    fit = bad = 0
    for crate, kind, label, path in edits("."):
        if asked and crate not in asked and f"{crate}/{label}" not in asked:
            continue
        why = wrong(os.path.join("crates", crate), kind, path)
        bad, fit = bad + bool(why), fit + (not why)
        if why:
            print(f"does not fit: {crate}/{kind}/{label}: {why}")
        elif not quiet:
            print(f"fits: {crate}/{kind}/{label}")
    print(f"{fit} fit, {bad} do not")
    return 1 if bad else 0


if __name__ == "__main__":
    sys.exit(main(sys.argv[1:]))
