#!/usr/bin/env python3
"""Imports the library's operators from Rattle.std.specs.Prelude, as rt ci asks, and not from a crate of this repository.

usage: python3 tools/port_imports.py CRATE..    (of crates/; a second run changes nothing)
"""
import os
import re
import sys

PRELUDE = "Rattle.std.specs.Prelude"
OPERATORS = set("◌≡◌ ◌+◌ ◌-◌ ◌*◌ ◌/◌ ◌%◌ ◌^◌ ◌<◌ ◌≤◌ ◌&&◌ ◌||◌ ◌≢◌ ◌⊎◌ ◌↔◌ ◌∷◌ ◌++◌ ◌+ℤ◌ ◌-ℤ◌ ◌*ℤ◌ ◌≤ℤ◌ ◌<ℤ◌ ◌==◌".split())
USE = re.compile(r"(?m)^((?:pub |ghost )?use )(Rattle\.[a-z_0-9]+\.[\w.]+)\.\{([^}]*)\}(;?)\n")
OURS = lambda path: not path.startswith("Rattle.std.") and not path.startswith("Rattle.core.")


def turned(text, own):
    moved, first = [], None

    def take(m):
        nonlocal first
        if m[2].split(".")[1] not in own:
            return m[0]
        names = [n.strip() for n in m[3].split(",") if n.strip()]
        lent = [n for n in names if n in OPERATORS]
        if not lent:
            return m[0]
        moved.extend(n for n in lent if n not in moved)
        first = first or (m[1], m[4])
        rest = [n for n in names if n not in OPERATORS]
        mark = "" if len(moved) > len(lent) else "\0"
        return mark + (f"{m[1]}{m[2]}.{{{', '.join(rest)}}}{m[4]}\n" if rest else "")

    new = USE.sub(take, text)
    if not moved:
        return text
    there = re.search(r"(?m)^((?:ghost )?use " + re.escape(PRELUDE) + r"\.\{)([^}]*)(\};?\n)", new)
    if there:
        names = [n.strip() for n in there[2].split(",")]
        names += [n for n in moved if n not in names]
        new = new[: there.start()] + there[1] + ", ".join(names) + there[3] + new[there.end() :]
        return new.replace("\0", "")
    line = f"{first[0].replace('pub ', '')}{PRELUDE}.{{{', '.join(moved)}}}{first[1]}\n"
    return new.replace("\0", line, 1).replace("\0", "")


def main(crates):
    own = set(os.listdir("crates"))
    for crate in crates:
        for folder, dirs, files in os.walk(f"crates/{crate}"):
            dirs[:] = sorted(d for d in dirs if d != "out")
            for f in sorted(files):
                if not f.endswith((".antt", ".rt")):
                    continue
                path = os.path.join(folder, f)
                text = open(path, encoding="utf-8").read()
                new = turned(text, own)
                if new != text:
                    open(path, "w", encoding="utf-8").write(new)
                    print(path)


if __name__ == "__main__":
    main(sys.argv[1:])
