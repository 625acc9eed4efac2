#!/usr/bin/env python3
"""Prints the last part of docs/DESIGN-PASS.md: docs/design_changes.py OLD [NEW], at the top of the repository.

What public signatures, clauses, types, definitions, theorems and lemmas changed from the commit OLD to NEW, and which private
functions went. What states the promise of a thing that went is read from the page, "?" where the page has nothing yet."""
import re
import subprocess
import sys

PAGE = "docs/DESIGN-PASS.md"
DECLARATION = re.compile(r"(?:(?:unfoldable|abbrev|opaque) )*(?:pub )?(?:record |data )?([^\s:(){}]+)\s+(?:[({].*)?:(?:\s|$)")
FUNCTION = re.compile(r'^( *)(?:#\[[^\n]*\]\n *)*(pub (?:extern "C" )?fn|pub\(crate\) fn|fn) (\w+)', re.M)
TYPE = re.compile(r"^(#\[derive\([^)]*\)\]\n)?((?:pub(?:\(crate\))? )?(?:struct|enum) (\w+)[^\n;]*?(?:;|\{.*?^\}))", re.M | re.S)


def sh(*words):
    return subprocess.run(words, capture_output=True, text=True, check=True).stdout


def files(commit, wanted):
    names = [n for n in sh("git", "ls-tree", "-r", "--name-only", commit, "crates").splitlines() if re.search(wanted, n)]
    return {n: sh("git", "show", f"{commit}:{n}") for n in names}


def squeeze(text):
    return re.sub(r"\s+", " ", text).strip()


def replacements():
    """What states the promise of each thing that went, as the page has it: (crate, name) -> text."""
    out, crate, name = {}, "", ""
    for line in open(PAGE):
        if line.startswith("### "):
            crate = line[4:].strip()
        elif re.match(r"- [a-z ]+ `", line):
            name = line.split("`")[1]
        elif line.startswith("  now: "):
            out[(crate, name)] = line[7:].strip()
    return out


def declarations(text):
    """The declarations of an antt file, with the parameters of the modules around them."""
    text = re.sub(r"module _ (?:(?!\bwhere\b)[\s\S])*? where", lambda m: squeeze(m.group(0)), text)
    modules, found = [], []
    for line in text.split("\n"):
        words = line.strip()
        if not words or words.startswith(("--", "use ", "pub use ", "pub mod", "infix")):
            continue
        indent = len(line) - len(line.lstrip())
        while modules and indent <= modules[-1][0]:
            modules.pop()
        here = indent == (modules[-1][0] + 2 if modules else 0)
        module = re.match(r"module _ ?(.*) where", words)
        if module and here:
            modules.append((indent, module.group(1)))
            continue
        named = DECLARATION.match(words)
        if named and here:
            params = " ".join(p for _, p in modules if p)
            found.append((named.group(1), [f"({params})" if params else "", words]))
        elif found:
            found[-1][1].append(words)
    return {name: squeeze(" ".join(lines)) for name, lines in found}


def antt(commit):
    """(crate, specs or proofs or answers, name) -> text: a lemma of a function's answers has the function's name before its own."""
    out = {}
    for path, text in files(commit, r"/(specs|proofs)/.*\.antt$").items():
        crate, kind = path.split("/")[1:3]
        last, owner = path.split("/")[-1], ""
        if last in ("Invariants.antt", "Lib.antt"):
            continue
        if last in ("Answers.antt", "Proof.antt") and not path.endswith("/proofs/Answers.antt"):
            kind, owner = "answers", "::".join(path.split("/")[3:-1]) + "::"
        for name, text in declarations(text).items():
            if ": goal." not in text and name != "with_number_spec":
                out[(crate, kind, owner + name)] = text
    return out


def statement(name, text):
    """A lemma without its proof."""
    m = re.match(r"^(\(.*?\) )?(?:(?:unfoldable|abbrev|opaque) )?(?:pub )?" + re.escape(name) + r" :(.*)$", text)
    if not m:
        return text
    kept = re.split(r" (?:unfolding [^=]*? )?" + re.escape(name) + r"(?: [^=]*)? = | unfolding ", m.group(2))[0]
    return (m.group(1) or "") + name + " :" + kept


def signature(text, start):
    """A function's text from `start` to the brace of its body, which ends a line that is no clause."""
    depth = 0
    for at in range(start, len(text)):
        depth += {"(": 1, "[": 1, ")": -1, "]": -1}.get(text[at], 0)
        if text[at] == "{" and depth == 0:
            before = text[text.rfind("\n", 0, at) + 1:at].strip()
            after = text[at + 1:text.find("\n", at)].strip()
            if not after and not before.startswith(("requires", "ensures")):
                return squeeze(text[start:at])
    return ""


def code(commit):
    """(crate, kind, name) -> text, of functions, types, ghost members and public constants."""
    out = {}
    for path, text in files(commit, r"/src/.*\.rt$").items():
        crate = path.split("/")[1]
        text = "\n".join(re.sub(r"(^|\s)//.*", "", line) for line in text.split("\n"))
        impls = [(m.start(), m.group(1)) for m in re.finditer(r"^impl(?:<[^>]*>)? (.*?) \{", text, re.M)]
        for m in FUNCTION.finditer(text):
            around = [name for at, name in impls if at < m.start()] if m.group(1) else []
            owner = around[-1] + "::" if around else ""
            kind = "pub fn" if m.group(2).startswith("pub ") or " for " in owner else "fn"
            out[(crate, kind, owner + m.group(3))] = signature(text, m.start(2))
        for m in TYPE.finditer(text):
            out[(crate, "type", m.group(3))] = squeeze((m.group(1) or "") + m.group(2))
        for m in re.finditer(r"^(impl[^\n]*? for [^\n{]*)\{\n(.*?)^\}", text, re.M | re.S):
            for g in re.finditer(r"ghost (\w+)( = \{.*?\});", m.group(2), re.S):
                out[(crate, "ghost", squeeze(m.group(1)) + "::" + g.group(1))] = squeeze(g.group(0))
        for m in re.finditer(r"^(pub const (\w+): [^;]*;)", text, re.M):
            out[(crate, "const", m.group(2))] = squeeze(m.group(1))
    return out


def show(title, old, new, now):
    print(f"## {title}\n")
    changed = sorted(k for k in set(old) | set(new) if old.get(k) != new.get(k))
    for crate in sorted({k[0] for k in changed}):
        print(f"### {crate}\n")
        for key in (k for k in changed if k[0] == crate):
            print(f"- {key[1]} `{key[2]}`\n```diff")
            for sign, text in (("-", old.get(key)), ("+", new.get(key))):
                if text is not None:
                    print(f"{sign} {text}")
            print("```")
            if key not in new:
                print("  now: " + now.get((crate, key[2]), "?") + "\n")


def main():
    commits = (sys.argv[1], sys.argv[2] if len(sys.argv) > 2 else "HEAD")
    now = replacements()
    codes = [code(c) for c in commits]
    show("Public signatures, clauses and types", *({k: t for k, t in d.items() if k[1] != "fn"} for d in codes), now)
    show("Private functions that went", {k: t for k, t in codes[0].items() if k[1] == "fn" and k not in codes[1]}, {}, now)
    all_of = [antt(c) for c in commits]
    show("Definitions and theorems in specs/", *({k: t for k, t in d.items() if k[1] == "specs"} for d in all_of), now)
    show("Lemmas in proofs/", *({k: statement(k[2], t) for k, t in d.items() if k[1] == "proofs"} for d in all_of), now)
    show("Lemmas in the answers of functions", *({k: statement(k[2].split("::")[-1], t) for k, t in d.items() if k[1] == "answers"} for d in all_of), now)


main()
