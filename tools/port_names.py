#!/usr/bin/env python3
"""Spells this repository's own definitions, lemmas and fields in snake case, once, after port.py.

usage: python3 tools/port_names.py [--list] [ROOT]

A name that a file of specs/ or proofs/ declares and that holds a dash, or a capital behind a small letter, gets underscores:
openingAnswer -> opening_answer, sum-parts -> sum_parts, neg_ℤ-*ℤ -> neg_ℤ_*ℤ. It is renamed wherever it stands as a whole word in .rt,
.antt and .edit files, and between backticks in pages. Strings, functions of src/, names of libraries and names that Rattle makes stay.
--list prints the names and what they would meet, and writes nothing.
"""
import collections
import os
import re
import sys

WORD = r"[^\s(){}.;,@\"«»\[\]\\`]+"
TOKEN = re.compile(r"\"(?:[^\"\\\n]|\\.)*\"|" + WORD)
DECLARED = re.compile(
    r"^\s*((?:abbrev |unfoldable |pub |data |record |ruleset )*)([^\s:(){}=,.`\"]+)\s*(?:\{[^{}\n]*\}\s*|\([^()\n]*\)\s*)*(?::(?=\s|$)|=(?=\s|$))"
)
KINDS = re.compile(r"^\s*(?:pub )?(?:data|record|ruleset) ([^\s:(){}=]+)")
LET = re.compile(r"\blet ([^\s:(){}=]+)\s*[:=]")
USE = re.compile(r"^(?:pub )?use ([^\s{]+?)\.?\{([^}]*)\}")
# The first four are what port.py made of names with a middle dot. The others would meet a name that stands already.
BY_HAND = {
    "List-as-Memᴰ": "ListMemᴰ",
    "List·Memᴰ·head": "ListMemᴰ_head",
    "List·Memᴰ·tail": "ListMemᴰ_tail",
    "List·Memᴰ·not-nil": "ListMemᴰ_not_nil",
    "inBytes": "in_bytes_of",
    "tooLong": "too_long_event",
    "tooShort": "too_short_event",
    "bytesAtLevel": "bytes_at_level",
}


def snake(name):
    name = re.sub(r"(?<=[a-z0-9])(?=[A-Z])", "_", name) if not name[:1].isupper() else name
    if not name[:1].isupper():
        name = re.sub(r"(?<=_)[A-Z](?![A-Z])", lambda m: m[0].lower(), name)
    name = re.sub(r"(?<=[a-z])(?=[ℤℕ])", "_", name)
    return name.replace("-", "_")


def texts(root, *ends):
    for folder, dirs, files in os.walk(os.path.join(root, "crates")):
        dirs[:] = sorted(d for d in dirs if d not in ("out", ".git"))
        for f in sorted(files):
            if f.endswith(ends):
                yield os.path.join(folder, f)


def read(path):
    with open(path, encoding="utf-8", newline="") as it:
        return it.read()


def without_comments(text):
    return "\n".join(re.sub(r"(^|\s)--.*$", "", l) for l in text.split("\n"))


def declared(root):
    """Each name that a file of specs/ or proofs/ declares, and the files."""
    found = collections.defaultdict(set)
    for path in texts(root, ".antt"):
        body = without_comments(read(path))
        for line in body.split("\n"):
            if re.match(r"\s*(pub )?use |\s*(pub )?mod |\s*unfolding ", line):
                continue
            for rule in (DECLARED, KINDS):
                m = rule.match(line)
                if m:
                    found[m[m.lastindex if rule is KINDS else 2]].add(path)
            for m in LET.finditer(line):
                found[m[1]].add(path)
            # fields of records on one line, and binders with a name of several words
            for m in re.finditer(r"[({;]\s*((?:[^\s:(){};,=.]+ )*[^\s:(){};,=.]+) : ", line):
                for n in m[1].split():
                    found[n].add(path)
            for m in re.finditer(r"λ ((?:[^\s:(){};,=.]+ )*[^\s:(){};,=.]+)\.", line):
                for n in m[1].split():
                    found[n].add(path)
    return found


def imported(root):
    """Each name that a file takes from a library that is not of this repository."""
    own = set(os.listdir(os.path.join(root, "crates")))
    found = collections.defaultdict(set)
    for path in texts(root, ".antt", ".rt"):
        for m in re.finditer(r"use ([^\s{;]+)\.\{([^}]*)\}", read(path)):
            steps = m[1].split(".")
            if steps[0] == "Rattle" and len(steps) > 1 and steps[1] in own:
                continue
            for n in m[2].split(","):
                n = n.strip()
                alias = n.split(" as ")
                found[alias[-1].strip()].add(path)
                found[alias[0].strip()].add(path)
    return found


def renamed(root):
    names = declared(root)
    lent = imported(root)
    to = dict(BY_HAND)
    kept = {}
    for n in names:
        if n in to or not ("-" in n[1:] or (n[:1].islower() and re.search(r"[a-z0-9][A-Z]", n)) or re.search(r"[a-z][ℤℕ]", n)):
            continue
        if n.startswith("-") or n in ("->",):
            continue
        new = snake(n)
        if new == n:
            continue
        if n in lent:
            kept[n] = sorted(lent[n])[:2]
            continue
        to[n] = new
    # a lemma that would have its definition's name ends in _lem
    taken = collections.Counter(to.values())
    for n, new in to.items():
        if "-" in n and n not in BY_HAND and (taken[new] > 1 or new in names or new in lent):
            to[n] = new + "_lem"
    return to, kept, names, lent


def turn_line(line, to, comment):
    """A line with its names turned: dashes only between backticks in a comment."""
    cut = re.search(comment, line) if comment else None
    head, tail = (line[: cut.start()], line[cut.start() :]) if cut else (line, "")
    head = TOKEN.sub(lambda m: to.get(m[0], m[0]), head)
    if tail:
        tail = turn_prose(tail, to)
    return head + tail


def turn_prose(text, to):
    text = re.sub(r"`[^`\n]+`", lambda q: TOKEN.sub(lambda m: to.get(m[0], m[0]), q[0]), text)
    return TOKEN.sub(lambda m: to.get(m[0], m[0]) if re.search(r"[a-z][A-Z]", m[0]) else m[0], text)


def turn(text, to, comment):
    return "\n".join(turn_line(l, to, comment) for l in text.split("\n"))


def main(argv):
    lists = "--list" in argv
    rest = [a for a in argv if not a.startswith("--")]
    root = rest[0] if rest else "."
    to, kept, names, lent = renamed(root)
    if lists:
        back = collections.defaultdict(set)
        for a, b in to.items():
            back[b].add(a)
        rust = set()
        for path in texts(root, ".rt"):
            rust |= set(re.findall(r"\b(?:fn|let|let mut|mod|const|static) (\w+)|\b(\w+):(?!:)", read(path)) and
                        [a or b for a, b in re.findall(r"\b(?:fn|let|let mut|mod|const|static) (\w+)|\b(\w+):(?!:)", read(path))])
        for b in sorted(back):
            why = []
            if len(back[b]) > 1:
                why.append("falls together: " + ", ".join(sorted(back[b])))
            if b in names and b not in to:
                why.append("is declared in " + ", ".join(sorted(os.path.relpath(p, root) for p in names[b])[:3]))
            if b in lent:
                why.append("is a library's in " + ", ".join(sorted(os.path.relpath(p, root) for p in lent[b])[:3]))
            if b in rust:
                why.append("is a word of src")
            if why:
                print(f"{b} <- {', '.join(sorted(back[b]))}: {'; '.join(why)}")
        for n in sorted(kept):
            print(f"kept {n}: a library's in {kept[n]}")
        print(len(to), "names")
        return
    for path in texts(root, ".antt", ".rt", ".edit"):
        text = read(path)
        comment = r"(?<!\S)--(?=\s|$)" if path.endswith(".antt") else r"//" if path.endswith(".rt") else r"^#"
        new = turn(text, to, comment)
        if new != text:
            with open(path, "w", encoding="utf-8", newline="") as it:
                it.write(new)
    pages = ["README.md"] + [os.path.join("docs", f) for f in sorted(os.listdir(os.path.join(root, "docs"))) if f.endswith(".md")]
    for page in pages:
        path = os.path.join(root, page)
        text = read(path)
        new = turn_prose(text, to)
        if new != text:
            with open(path, "w", encoding="utf-8", newline="") as it:
                it.write(new)
    print(len(to), "names")


if __name__ == "__main__":
    main(sys.argv[1:])
