#!/usr/bin/env python3
"""Counts the places of docs/DESIGN-PASS.md in the sources, crates/*/src/*.rt, and lists them.

usage: python3 tools/places.py [--list] [COMMIT]        at the top of the repository; without a commit: the work tree

1 enums shaped like Option or Result, bools beside a value, numbers for kinds and refusals, values that stand for a failure
2 twins: functions of one crate whose bodies differ in names and numbers alone
3 loops, by kind: those that count an index by hand, and what they run over
4 equality, order, copying, conversion and printing written by hand
5 facts that stand in the contracts of three or more functions of a crate, and parameters that three or more of its functions take together
6 buffers with a length beside them
7 a value that says which step to run
8 lines of proofs, answers, and answers that are one call of a tactic
"""
import collections
import os
import re
import subprocess
import sys


def sources(commit):
    """The text of each source file, by its path."""
    if commit:
        names = subprocess.check_output(["git", "ls-tree", "-r", "--name-only", commit, "crates"], text=True).split("\n")
        for name in names:
            if re.fullmatch(r"crates/\w+/(src|proofs)/.*\.(rt|antt)", name):
                yield name, subprocess.check_output(["git", "show", f"{commit}:{name}"], text=True)
    else:
        names = subprocess.check_output(["git", "ls-files", "-co", "--exclude-standard", "crates"], text=True).split("\n")
        for name in sorted(set(names)):
            if re.fullmatch(r"crates/\w+/(src|proofs)/.*\.(rt|antt)", name) and os.path.exists(name):
                yield name, open(name, encoding="utf-8").read()


def functions(text):
    """Name, line, head with the clauses, body of each function that has a body."""
    lines = text.split("\n")
    at = 0
    while at < len(lines):
        head = re.match(r"^( *)(pub (\(crate\) )?)?(const )?(extern \"C\" )?fn (\w+)", lines[at])
        if not head:
            at += 1
            continue
        indent, name, first = head.group(1), head.group(6), at
        while at < len(lines) and not (lines[at] == indent + "{" or (lines[at].endswith("{") and at >= first and not re.match(r"\s*(requires|ensures)", lines[at]))):
            if lines[at].endswith(";"):
                break
            at += 1
        begin = at
        while at < len(lines) and lines[at] != indent + "}":
            at += 1
        yield name, first + 1, "\n".join(lines[first:begin]), "\n".join(lines[begin + 1 : at])
        at += 1


def code(text):
    """With comments and imports left empty, so that lines keep their numbers."""
    return "\n".join("" if line.startswith(("ghost use", "use ", "pub use")) else re.sub(r"(^|\s)//.*", "", line) for line in text.split("\n"))


def shape(body):
    """The tokens of a body with every name and number alike."""
    words = re.findall(r'b?"[^"]*"|b?\'[^\']*\'|\w+|[^\s\w]', code(body))
    keep = {"if", "else", "for", "in", "while", "loop", "return", "match", "let", "mut", "true", "false", "as", "break"}
    return " ".join(w if w in keep or not re.match(r"\w|b?[\"']", w) else "x" for w in words)


def clauses(head):
    """The facts of the requires of a function, split at ×."""
    found = []
    for clause in re.findall(r"requires \w* ?\{(.*?)\}(?=\s*(?:ensures|requires|$))", head, re.S):
        depth, part = 0, ""
        for c in " ".join(clause.split()):
            if c == "×" and depth <= 0:
                found.append(part)
                part = ""
                continue
            depth += (c in "([{") - (c in ")]}")
            part += c
        found.append(part)
    out = []
    for fact in found:
        fact = fact.strip()
        while fact.startswith("(") and fact.endswith(")"):
            fact = fact[1:-1].strip()
        out.append(fact)
    return out


def parameters(head):
    inside = re.search(r"\((.*?)\)\s*(->|$|\n)", head, re.S)
    pairs = re.findall(r"(\w+): ([^,()\n]+(?:\[[^\]]*\])?)", inside.group(1)) if inside else []
    return [f"{n}: {t.strip()}" for n, t in pairs]


def main():
    words = sys.argv[1:]
    listing = "--list" in words
    commit = next((w for w in words if not w.startswith("-")), "")
    files = dict(sources(commit))
    rt = {n: t for n, t in files.items() if n.endswith(".rt")}
    places = collections.OrderedDict()

    def put(point, where, what):
        places.setdefault(point, []).append(f"{where}: {what}")

    for name, text in rt.items():
        plain = code(text)
        for enum, body in re.findall(r"enum (\w+) \{(.*?)\n\}", plain, re.S):
            variants = re.findall(r"^    (\w+)", body, re.M)
            if "Nothing" in variants or "Accepted" in variants:
                put("1 enum shaped like Option or Result", name, enum)
        for struct, body in re.findall(r"struct (\w+)(?:<[^>]*>)? \{(.*?)\n\}", plain, re.S):
            for field in re.findall(r"^    (?:pub )?(\w+): bool,", body, re.M):
                put("1 bool in a struct", name, f"{struct}.{field}")
        for n, line in enumerate(plain.split("\n"), 1):
            if re.search(r"\bFAILED\b", line):
                put("1 number for a failure", f"{name}:{n}", line.strip())
            if re.search(r"return s\.len\(\)|next: s\.len\(\)|== s\.len\(\) \{", line) and ("grammar" in name or "limit_file" in name):
                put("1 place that stands for nothing", f"{name}:{n}", line.strip())
            if re.search(r"\b(kind|level|letter|set|own|default|group): u(8|64)\b(?=[,)])", line) and re.search(r"\bfn \w+|: u8, |^    (kind|level|letter|set)", line):
                for w in re.findall(r"\b(kind|level|letter|set|own|default): u(?:8|64)\b", line):
                    put("1 number for a kind, a level or a yes", f"{name}:{n}", line.strip())
                    break
            if re.search(r"^\s*no => no,|^\s*no => j,", line):
                put("1 refusal handed on by a match", f"{name}:{n}", line.strip())
            loop = re.match(r"\s*(while|loop|for)\b(.*)\{", line)
            if loop:
                kind = loop.group(1)
                if kind == "for":
                    put("3 for over a range" if ".." in loop.group(2) else "3 for over items", f"{name}:{n}", line.strip())
                else:
                    put("3 while or loop", f"{name}:{n}", line.strip())
            if re.search(r"\.(all|any|find|position|map|filter|zip|sum|fold|chunks|starts_with|copy_from_slice|fill|rev)\(", line):
                put("3 iterator or method of the library", f"{name}:{n}", line.strip())
            if re.search(r"\w+: &(mut )?\[\w+\](, | *\n)?\s*(n|count): usize", line) or re.match(r"    n: usize,$", line):
                put("6 buffer with a length beside it", f"{name}:{n}", line.strip())
            if re.search(r"if letter ==|match letter", line):
                put("7 value that says which step to run", f"{name}:{n}", line.strip())
    hand = r"same_\w+|wide\d+|side_of|number_of|bit_of|weighted|signed\d+|bits\d+|plus|less|negated|times|magnitude|opposite|smaller|put_(?!all|line|order|sizes|groups|contracts|weights|bytes|roster)\w+"
    shapes, facts, together = {}, {}, {}
    for name, text in rt.items():
        crate = name.split("/")[1]
        for function, line, head, body in functions(text):
            if re.fullmatch(hand, function) or f"{crate}::{function}" in ("ledger::at_most", "memory_reading::contracts"):
                put("4 written by hand", f"{name}:{line}", function)
            if len(shape(body).split()) >= 6:
                shapes.setdefault((crate, shape(body)), []).append(f"{os.path.basename(name)[:-3]}::{function}")
            for fact in set(clauses(head)):
                facts.setdefault((crate, fact), []).append(function)
            own = parameters(head)
            for i, a in enumerate(own):
                for b in own[i + 1 :]:
                    together.setdefault((crate, a, b), []).append(function)
    for (crate, _), names in shapes.items():
        if len(names) > 1:
            put("2 functions alike", crate, ", ".join(names))
    for (crate, fact), names in facts.items():
        if len(names) >= 3:
            put("5 fact in three contracts or more", crate, f"{fact} ({len(names)})")
    for (crate, a, b), names in together.items():
        if len(names) >= 3:
            put("5 parameters together in three functions or more", crate, f"{a}, {b} ({len(names)})")
    for point in sorted(places):
        print(f"{len(places[point]):5} {point}")
        if listing:
            for place in places[point]:
                print(f"        {place}")
    proofs = {n: t for n, t in files.items() if n.endswith(".antt")}
    answers = {n: t for n, t in proofs.items() if n.endswith("/Answers.antt")}
    print(f"{sum(t.count(chr(10)) for t in rt.values()):5} lines of src")
    print(f"{sum(t.count(chr(10)) for t in proofs.values()):5} 8 lines of proofs")
    print(f"{len(answers):5} 8 files of answers")
    print(f"{sum(len(re.findall(r'^pub [^ ]+ :', t, re.M)) for t in answers.values()):5} 8 answers")
    print(f"{sum(len(re.findall(r'^[^ ]+ c = (?:search rules|omega arith|refl|grind arith)$', t, re.M)) for t in answers.values()):5} 8 answers that are one call of a tactic")


main()
