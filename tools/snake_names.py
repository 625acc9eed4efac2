#!/usr/bin/env python3
"""Gives this repository's definitions and lemmas the spelling of the present Rattle, in specs/, proofs/, clauses and must-fail edits.

usage: python3 tools/snake_names.py      at the top of the repository, once, after the kit's port.py

- A definition, field or constructor in lower camel case gets snake case: isLate becomes is_late. Types and modules keep their names.
- A dash in a name becomes '_', but between two names that are defined it stays: count-all has the definitions count and all.
- The proof of a Rattle function f is f_spec.
- Where the new name is another item's, the old one stays but for camel case, and is printed.
"""
import os
import re
import sys

DECLARED = re.compile(r"^\s*(?:(?:abbrev|unfoldable|pub|data|record)\s+)*([^\s:(){},;.]+)\s*:(?:\s|$)")
IMPORTED = re.compile(r"^\s*(?:pub\s+|ghost\s+)?use\s+(\S+?)\.\{([^}]*)\}")
TOKEN = r"(?<![\w'\u25cc-])%s(?![\w'-])"


# Lemmas of proofs/ whose name a definition gets.
APART = {"same_code": "codes_agree"}


def files(top, ends):
    for folder, dirs, names in os.walk(os.path.join(top, "crates")):
        dirs[:] = sorted(d for d in dirs if d != "out")
        for n in sorted(names):
            if n.endswith(ends):
                yield os.path.join(folder, n)


def read(path):
    with open(path, encoding="utf-8") as f:
        return f.read()


def of_function(path):
    """The function that a file of proofs/ belongs to, or None for a file of lemmas."""
    parts = path.split(os.sep)
    at = parts.index("proofs") if "proofs" in parts else -1
    return parts[-2] if at >= 0 and len(parts) > at + 2 else None


def snake(name):
    return re.sub(r"(?<=[a-z0-9])([A-Z])", lambda m: "_" + m.group(1).lower(), name)


def main():
    defined, words = {}, set()
    for p in files(".", ".antt"):
        for line in read(p).splitlines():
            if line.split(" :")[0].strip() in APART:
                continue
            if line.lstrip().startswith("--"):
                continue
            m = DECLARED.match(line)
            if m and not of_function(p):
                defined.setdefault(m.group(1), p)
    taken = set(defined)
    for p in files(".", (".antt", ".rt")):
        for line in read(p).splitlines():
            m = IMPORTED.match(line)
            if m and not m.group(1).startswith("Rattle.") or m and m.group(1).startswith("Rattle.std"):
                names = {n.strip() for n in m.group(2).split(",")}
                taken |= names
                words |= {n for n in names if re.fullmatch(r"[a-z_0-9]+", n)}
    new = {}
    for n in sorted(defined):
        if re.match(r"[a-z]", n) and re.search(r"[a-z0-9][A-Z]", n):
            new[n] = snake(n)
    words |= {new.get(n, n) for n, p in defined.items() if "/specs/" in p and re.fullmatch(r"[a-z]\w*", n)} | {"and", "or", "not"}
    for n in sorted(defined):
        if "-" in n and re.match(r"[a-z]", n) and re.fullmatch(r"[\w'-]+", n):
            parts = n.split("-")
            made = parts[0]
            for a, b in zip(parts, parts[1:]):
                made += ("-" if a in words and b in words else "_") + b
            new[n] = made
    took = set()
    for n, m in sorted(new.items()):
        if m != n and (m in taken or m in took or m in [new[k] for k in new if k != n]):
            if "-" in n:
                new[n] = n
            print(f"falls together: {n} and {m}" + (", which stays apart" if "-" in n else ""))
        took.add(new[n])
    new = {n: m for n, m in new.items() if n != m}
    dotted = {n: m for n, m in new.items() if "-" not in n or "/specs/" in defined[n]}
    every = re.compile(r"(?<![\w'\u25cc-])(%s)(?![\w'-])" % "|".join(sorted(map(re.escape, new), key=len, reverse=True)))

    def turn(text):
        def one(m):
            n = m.group(1)
            after_dot = m.start() > 0 and text[m.start() - 1] == "."
            return dotted.get(n, n) if after_dot else new[n]

        return every.sub(one, text)

    changed = 0
    for p in files(".", (".antt", ".rt", ".edit")):
        text = was = read(p)
        if "proofs" in p.split(os.sep):
            for n, m in APART.items():
                text = re.sub(TOKEN % n, m, text)
        out = "\n".join(l if p.endswith(".edit") and not re.match(r"(old|new):", l) else turn(l) for l in text.split("\n"))
        f = of_function(p)
        if f and p.endswith(".antt"):
            f = f.lstrip("+")
            out = re.sub(TOKEN % re.escape(f.replace("_", "-") + "-spec"), f + "_spec", out)
        if out != was:
            with open(p, "w", encoding="utf-8") as it:
                it.write(out)
            changed += 1
    print(f"{len(new)} names turned, in {changed} files")


if __name__ == "__main__":
    sys.exit(main())
