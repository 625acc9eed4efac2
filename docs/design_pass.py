#!/usr/bin/env python3
"""Counts the places of the points of docs/DESIGN-PASS.md in a commit's crates: docs/design_pass.py [COMMIT] [--list].

Each count is of lines of crates/*/src/*.rt, without comments, that a pattern finds, of functions, or of proof files' answers.
With --list it names each place."""
import collections
import itertools
import re
import subprocess
import sys

NUMBERS = r"(?:u8|u16|u32|u64|u128|usize)"


def sh(*words):
    return subprocess.run(words, capture_output=True, text=True, check=True).stdout


def files(commit, wanted):
    names = [n for n in sh("git", "ls-tree", "-r", "--name-only", commit, "crates").splitlines() if re.search(wanted, n)]
    return {n: sh("git", "show", f"{commit}:{n}") for n in names}


def code(text):
    """The text without comments, contracts kept."""
    return "\n".join(re.sub(r"(^|\s)//.*", "", line) for line in text.split("\n"))


def functions(texts):
    """Each function: file, name, parameters, clauses, body."""
    found = []
    for name, text in texts.items():
        for m in re.finditer(r"\bfn (\w+)(?:<[^(]*>)?\(", text):
            at, depth = m.end(), 1
            while depth:
                depth += {"(": 1, ")": -1}.get(text[at], 0)
                at += 1
            params = re.sub(r"\s+", " ", text[m.end():at - 1]).strip().rstrip(",")
            open_at = re.compile(r"^[ ]*\{$|\{$", re.M).search(text, at)
            if open_at is None:
                continue
            end, depth = open_at.end(), 1
            while depth:
                depth += {"{": 1, "}": -1}.get(text[end], 0)
                end += 1
            found.append((name, m.group(1), params, text[at:open_at.start()], text[open_at.end():end - 1]))
    return found


def split_params(params):
    out, depth, last = [], 0, ""
    for c in params:
        depth += {"<": 1, "(": 1, "[": 1, ">": -1, ")": -1, "]": -1}.get(c, 0)
        if c == "," and depth == 0:
            out.append(last.strip())
            last = ""
        else:
            last += c
    if last.strip():
        out.append(last.strip())
    return [p for p in out if not re.fullmatch(r"(&(mut )?|mut )?self", p)]


def grep(texts, pattern):
    return [f"{n}: {line.strip()}" for n, t in texts.items() for line in t.split("\n") if re.search(pattern, line)]


def plain(body, params):
    """A body with its parameters' names, types, numbers and constants taken out."""
    for i, param in enumerate(split_params(params)):
        body = re.sub(rf"(?<![.\w]){re.escape(param.split(':')[0].replace('mut ', '').strip())}\b", f"_{i}", body)
    body = re.sub(rf"\b{NUMBERS}\b|\b\d[\d_]*\b|\b[A-Z][A-Z_0-9]+\b|'.'", "#", body)
    return re.sub(r"\s+", "", body)


def points(commit):
    src = {n: code(t) for n, t in files(commit, r"/src/.*\.rt$").items()}
    fns = functions(src)
    yield "1 own enums", grep(src, r"^\s*(pub(\(crate\))? )?enum \w+")
    yield "1 functions that answer a cause's number or 0", grep(src, r"fn \w*cause\w*\(.*-> u8")
    yield "1 flags beside a value", grep(src, r"^\s+(pub )?\w+: bool,$")
    numbers = (r"\b(code|mark|kind|grouping|number|cause)\b\)? [=!]= \d|^\s*\d+( \| \d+)* =>|=> \d+,|matches!\([*\w]+, \d"
               r"|Refused[({ ].*[({ ]\d+\b|\bnumber: \d|\bcode: \d|, \d, \d, \d\)|\bput_totals\(\d"
               r"|return ([1-9]|1[1-8]|2[1-4]|3[12]);")
    table = r"^\s*Cause::\w+ => \d+,$"
    found = {n: "\n".join(line for line in t.split("\n") if not re.match(table, line)) for n, t in src.items()}
    yield "1 numbers for kinds, causes, codes, marks", grep(found, numbers)
    same = collections.defaultdict(list)
    for n, f, params, _, body in fns:
        if len(plain(body, params)) > 12:
            same[plain(body, params)].append(f"{n}: {f}")
    yield "2 functions with one body but for types and numbers", [" = ".join(v) for v in same.values() if len(v) > 1]
    yield "3 loops that count by hand", [f"{n}: {f}" for n, f, _, _, b in fns if re.search(r"\b(while|loop)\b", b)]
    yield "3 for loops over indices", grep(src, r"for \w+ in [\w.()]+\.\.")
    yield "4 casts", [f"{n}: {line.strip()}" for n, t in src.items() for line in t.split("\n") for _ in re.findall(rf"\bas {NUMBERS}\b", line)]
    yield "4 bare derives", grep(src, r"#\[derive\(Clone, Copy\)\]")
    by_hand = (r"^(bit|kind_of|byte_at|bytes_at|u\d+_at|number_at|number|put_u\d+s?|put|fill|bytes_of|hex_digit|hex_at|put_hex|put_decimal"
               r"|print_refused|put_refused_at|has_code|say_number|verdict_of|mark_word|put_mark|blank_\w+|item_or)$")
    yield "4 functions that convert, print, fill or compare", [f"{n}: {f}" for n, f, _, _, _ in fns if re.search(by_hand, f)]
    together = collections.defaultdict(list)
    for n, f, params, _, _ in fns:
        for pair in itertools.combinations(sorted(re.sub(r"\bmut ", "", p) for p in split_params(params)), 2):
            together[(n.split("/")[1], pair)].append(f)
    pairs = [f"{c}: ({a}; {b}): {', '.join(fs)}" for (c, (a, b)), fs in together.items() if len(fs) > 2]
    yield "5 parameters that travel together in three functions", pairs
    clauses = collections.defaultdict(list)
    for n, f, _, clause, _ in fns:
        for m in re.finditer(r"\b(?:requires|ensures)(?: \w+)? \{ (.*) \}$", clause, re.M):
            for part in re.split(r" × ", m.group(1)):
                clauses[(n.split("/")[1], part.strip("() "))].append(f)
    yield "5 clauses that stand in three contracts", [f"{c}: {p}: {', '.join(f)}" for (c, p), f in clauses.items() if len(f) > 2]
    structs = []
    for n, t in src.items():
        for m in re.finditer(r"struct (\w+)[^{;]*\{(.*?)\n\}", t, re.S):
            if len(re.findall(r": \[", m.group(2))) > 1:
                structs.append(f"{n}: {m.group(1)}")
    yield "6 structs of several arrays", structs
    sized = [f"{n}: {f}({params})" for n, f, params, _, _ in fns
             if re.search(r"\[", params) and re.search(r"\b(n|len|size|bytes|room): usize", params)]
    yield "6 buffers with a length beside", sized
    yield "7 a switch on the step to run", grep(src, r"b'[A-Z]' =>")
    proofs = files(commit, r"/proofs/.*\.antt$")
    answers = [f"{n}: {line}" for n, t in proofs.items() for line in t.split("\n") if re.match(r"pub \S+ : goal\.", line)]
    yield "8 answers", answers
    yield "8 lines of proof files", [line for t in proofs.values() for line in t.split("\n")[:-1]]


def main():
    words = [w for w in sys.argv[1:] if w != "--list"]
    for what, places in points(words[0] if words else "HEAD"):
        print(f"{len(places):5} {what}")
        if "--list" in sys.argv and not what.startswith("8"):
            for place in places:
                print("        " + place)


main()
