#!/usr/bin/env python3
"""Brings this repository's own names to today's spelling, after the kit's port.py has turned the library's.

usage: tools/spell_names.py [--list]      at the top of the repository; --list prints 'old new' and writes nothing

- Definitions, fields and constructors: camel case becomes snake case.
- Lemmas: a dash joins the name of a function on lists and that of a definition, as in `length-put`; all else is joined with '_'.
- In the name of a lemma, a definition of the library or the repository stands as it is spelled today.
- Types, modules and what the sources name in Rust keep their names, as do the exports, strings, inputs and outputs.
A lemma that would have its definition's name has '_lem' behind it. Names that fall together otherwise are told by a line 'look:'.
"""
import collections
import glob
import os
import re
import sys

TOKEN = re.compile(r"[^\s(){}\[\];,.\"`«»|]+")
BARE = re.compile(r"[A-Za-z][\w'-]*[ᵇ]?$")
SIGNED = re.compile(r"^(?:(?:pub|abbrev|unfoldable|axiom)\s+)*([^\s(){}\[\];,.:=\"`]+)\s+:\s")
TYPED = re.compile(r"^(?:(?:pub|abbrev|unfoldable)\s+)*(?:record|data)\s+([^\s(){}\[\];,.:=\"`]+)")
LIBRARY = {"getD": "get_or"}
# Functions on lists, whose laws are named after them: `length-put` is of `length` and `put`.
LIST = {"length", "take", "drop", "get_or", "set", "sets"}
# Lemmas whose definitions come to their names.
CHOSEN = {"all_yes": "all_yes_lem", "lengths_read": "lengths_read_lem"}
# The generated names of calls in proofs of functions, which no definition can be taken for.
CALLS = {"is_us"}


def files(pattern):
    return sorted(p for p in glob.glob(pattern, recursive=True) if "/out/" not in p)


def read(p):
    with open(p, encoding="utf-8") as f:
        return f.read()


def snake(name):
    return re.sub(r"(?<=[a-z0-9])([A-Z])", lambda m: "_" + m.group(1).lower(), name)


def clauses(text):
    """The spans of a source that contracts and proofs read: ghost items, clauses, and what comments quote."""
    spans, at = [], 0
    for m in re.finditer(r"\b(?:ghost use\b[^;]*;|(?:requires|ensures)\b[^{\n]*\{|ghost\b[^{;\n]*\{)", text):
        if m.start() < at:
            continue
        end = m.end()
        if m.group().endswith("{"):
            depth = 1
            while depth:
                depth += {"{": 1, "}": -1}.get(text[end], 0)
                end += 1
        spans.append((m.start(), end))
        at = end
    for m in re.finditer(r"//.*", text):
        spans += [(m.start() + q.start(), m.start() + q.end()) for q in re.finditer(r"`[^`]*`", m.group())]
    return sorted(spans)


def main(listing):
    antt = files("crates/*/specs/**/*.antt") + files("crates/*/proofs/**/*.antt")
    rt = files("crates/*/src/**/*.rt")
    defined, of_function, stated, library, seen = set(), set(), set(), set(), set()
    for p in antt:
        inner = re.search(r"/proofs/[^/]+/", p)
        for line in read(p).split("\n"):
            s = line.strip()
            if s.startswith("--"):
                continue
            m = re.match(r"(?:pub )?use ([\w.+]+)\.\{([^}]*)\}", s)
            if not m and not re.match(r"(?:pub )?use |pub mod |mod ", s):
                seen |= set(TOKEN.findall(s))
            if m:
                if not m.group(1).startswith("Rattle."):
                    library |= set(TOKEN.findall(m.group(2)))
                continue
            m = SIGNED.match(s)
            if m and BARE.match(m.group(1)):
                (of_function if inner else defined).add(m.group(1))
                if "/specs/" in p and not line.startswith(" "):
                    stated.add(m.group(1))
    # A definition may share its name with a function of the sources, but not with a field, a parameter or a constant.
    for p in rt:
        seen |= set(re.findall(r"(\w+)\s*:", read(p)))
    seen -= CALLS | set(CHOSEN)
    words = {snake(n) for n in stated if n[0].islower() and "-" not in n} | {n for n in library if re.match(r"[a-z]\w*$", n)}
    words -= {"refl", "sym", "ap", "inl", "inr", "arith", "rules", "one", "two", "all", "next"}

    def lemma(name):
        parts, out, i = [LIBRARY.get(q, q) for q in name.split("-")], [], 0
        while i < len(parts):
            for j in range(len(parts), i, -1):
                word = "_".join(parts[i:j])
                if word in words or j == i + 1:
                    break
            out.append((word, word in words))
            i = j
        dashed = out[0][0] in LIST and all(named for _, named in out)
        return ("-" if dashed else "_").join(word for word, _ in out)

    new = {}
    for n in sorted(defined | {n for n in of_function if n.endswith("-spec")}):
        if n in of_function and not n.endswith("-spec"):
            continue
        if n[0].isupper():
            continue
        if n in library:
            continue
        to = CHOSEN.get(n) or (lemma(snake(n)) if "-" in n else snake(n))
        if to != n:
            new[n] = to
    # Where a lemma would have its definition's name it gets '_lem'.
    taken = seen | {to for n, to in new.items() if "-" not in n}
    for n in sorted(n for n in new if "-" in n):
        to = new[n]
        if to in taken:
            to = new[n] = to + "_lem"
        if to in taken:
            print(f"look: {n}, for {to} stands already", file=sys.stderr)
        taken.add(to)
    back = collections.Counter(new.values())
    for n, to in new.items():
        if back[to] > 1 or "-" not in n and to in seen:
            print(f"look: {n} and another come to {to}", file=sys.stderr)
    if listing:
        for n in sorted(new):
            print(n, new[n])
        return
    swap = lambda t: TOKEN.sub(lambda m: new.get(m.group(), m.group()), t)

    def write(p, t, was):
        if t != was:
            with open(p, "w", encoding="utf-8") as f:
                f.write(t)

    for p in antt:
        t = read(p)
        write(p, swap(t), t)
    for p in rt:
        t = read(p)
        out, at = "", 0
        for a, b in clauses(t):
            if a >= at:
                out += t[at:a] + swap(t[a:b])
                at = b
        write(p, out + t[at:], t)
    for p in files("crates/*/must-fail/*.edit") + files("tests/edits/**/*.edit"):
        lines, name = read(p), ""
        out = []
        for line in lines.split("\n"):
            if line.startswith("file: "):
                name = line
            if line.startswith(("old: ", "new: ")) and (name.endswith(".antt") or re.search(r"\bensures\b|\brequires\b|ghost use", line)):
                line = line[:5] + swap(line[5:])
            out.append(line)
        write(p, "\n".join(out), lines)
    for p in files("docs/*.md") + ["README.md"]:
        t = read(p)
        write(p, re.sub(r"`[^`\n]+`", lambda m: swap(m.group()), t), t)


if __name__ == "__main__":
    os.chdir(os.popen("git rev-parse --show-toplevel").read().strip())
    main("--list" in sys.argv[1:])
