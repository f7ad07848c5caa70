#!/usr/bin/env python3
"""Brings the names of definitions and lemmas to the spelling of today's Rattle: words in snake case, types and modules in camel case, a dash only between two
names. Ran once, on what port.py left (docs/PORT.md). Functions of src/, strings, inputs and outputs keep their names.

    tools/port_names.py list     prints each old name with its new one, and names that would fall together
    tools/port_names.py turn     writes the new names in crates/, and in the pages
"""
import os
import re
import sys

TOKEN = re.compile(r"[^\s(){}\[\],;.`\"/|→×:]+")
WORD = r"[a-zA-Z◌_≤≡][^\s(){}\[\],;:.]*"
DECLARED = re.compile(r"^( *)((?:(?:abbrev|unfoldable|pub|record|data|ruleset) +)*)(" + WORD + r")((?: [^=]*?)?) :(?: |$)")
CAMEL = re.compile(r"(?<=[a-z0-9])[A-Z]")
# Beside a function or a parameter of the same name, or another definition, a plain new spelling would be misread.
OWN = {"half_up": "half_up_lem"}
LIBRARY = set("length append take drop map sum get get_or set reverse replicate".split())


def crates():
    return sorted(c for c in os.listdir("crates") if os.path.isdir(os.path.join("crates", c, "src")))


def files(ending, *folders):
    for c in crates():
        for folder in folders:
            for at, dirs, names in os.walk(os.path.join("crates", c, folder)):
                dirs[:] = sorted(d for d in dirs if d != "out")
                for n in sorted(names):
                    if n.endswith(ending):
                        yield os.path.join(at, n)


def read(path):
    with open(path, encoding="utf-8") as f:
        return f.read()


def imported(text):
    """What a file takes from outside of the repository."""
    taken = set()
    own = "|".join(crates())
    for path, names in re.findall(r"use ([^\s{;]+)\.\{([^}]*)\}", text):
        if not re.match(rf"Rattle\.({own})\.", path):
            taken |= {n.strip().split(" as ")[0] for n in names.split(",")}
    return taken


def declared():
    """Each name with whether it is a definition (of specs/, or a field)."""
    found = {}
    for p in files(".antt", "specs", "proofs"):
        by_function = p.endswith(("/Proof.antt", "/Answers.antt", "/Invariants.antt"))
        depth = 0
        for line in read(p).splitlines():
            m = DECLARED.match(line)
            if not m or (m[1] and not m[2].strip() and not m[3].startswith("◌")):
                continue
            if by_function and (re.search(r": (\{M : Type 1\} → statement|tie\.)", line) or m[3].endswith("-spec")):
                continue
            found[m[3]] = found.get(m[3]) or ("top" if "/specs/" in p and not m[1] else "field" if m[1] else None)
    return found


def snake(word):
    word = CAMEL.sub(lambda m: "_" + m[0].lower(), word)
    return re.sub(r"(?<=[A-Z])[A-Z](?=_|$)", lambda m: m[0].lower(), word)


def part(word, types):
    """One name of a name: a type keeps its capital."""
    if not word or word[0].isupper() or word in types:
        return word
    return snake(word)


def renamed():
    names = declared()
    outside = set()
    for p in files(".antt", "specs", "proofs"):
        outside |= imported(read(p))
    for p in files(".rt", "src"):
        outside |= imported(read(p))
    # Names that a dash may join: definitions, and functions of the library.
    plain = {snake(n) for n, spec in names.items() if spec == "top" and CAMEL.search(n)} | LIBRARY
    new = {}
    for n in names:
        if n in outside or n in ("_",) or n[0].isupper() and "-" not in n:
            continue
        pieces = [part(w, ()) for w in n.split("-")]
        out = pieces[0]
        for a, b in zip(pieces, pieces[1:]):
            out += ("-" if a in plain and b in plain else "_") + b
        out = OWN.get(n, out)
        if out != n:
            new[n] = out
    # A lemma that would have its definition's name.
    for n in list(new):
        if "-" in n and (new[n] in names or any(m != n and new[m] == new[n] for m in new)):
            new[n] += "_lem"
    return new, names, outside


def turned(path, text, new, fields):
    """The text with the new names. In a comment a name stands in backticks or in camel case; behind a dot of a proof's own facts stand Rattle's names."""
    proof = re.search(r"/proofs/.+/[^/]+\.antt$", path)
    mark = "//" if path.endswith((".rt", ".edit")) else "--"

    def in_code(code, use):
        def one(m):
            n = m[0]
            if n not in new:
                return n
            before = code[: m.start()]
            if before.endswith(".") and proof and not use and n not in fields and not re.search(r"(?<![\w.])([A-Z]'?|withdrawn)\.$", before):
                return n
            return new[n]

        return TOKEN.sub(one, code)

    def in_comment(words):
        words = re.sub(r"`[^`]*`", lambda m: in_code(m[0], True), words)
        return TOKEN.sub(lambda m: new[m[0]] if m[0] in new and CAMEL.search(m[0]) else m[0], words)

    out = []
    for line in text.split("\n"):
        if path.endswith(".md"):
            out.append(re.sub(r"`[^`]*`", lambda m: in_code(m[0], True), line))
            continue
        code, dash, words = line.partition(mark + " ") if mark == "//" else re.match(r"((?:(?!-- ).)*)(-- |)(.*)$", line).groups()
        out.append(in_code(code, " use " in " " + code) + dash + in_comment(words))
    return "\n".join(out)


def pages():
    for at, dirs, names in os.walk("docs"):
        for n in names:
            if n.endswith(".md") and not n.startswith("PORT"):
                yield os.path.join(at, n)
    yield from ("README.md", "CONTRIBUTING.md", "tools/README.md")


def main(argv):
    os.chdir(os.path.join(os.path.dirname(os.path.abspath(__file__)), ".."))
    new, names, outside = renamed()
    if argv == ["list"]:
        for n in sorted(new):
            print(n, new[n])
        for a in sorted(new):
            if sum(new[b] == new[a] for b in new) > 1 or new[a] in names:
                print("falls together:", a, new[a])
        for p in [*files(".antt", "specs", "proofs"), *files(".rt", "src")]:
            words = set(TOKEN.findall(read(p)))
            for n in sorted(words & set(new)):
                if new[n] in words:
                    print("stands already:", n, new[n], p)
        return 0
    if argv == ["turn"]:
        fields = {n for n, kind in names.items() if kind == "field"}
        for p in [*files(".antt", "specs", "proofs"), *files(".rt", "src"), *files(".edit", "must-fail"), *pages()]:
            text = read(p)
            now = turned(p, text, new, fields)
            if now != text:
                with open(p, "w", encoding="utf-8") as f:
                    f.write(now)
        return 0
    print(__doc__)
    return 2


if __name__ == "__main__":
    raise SystemExit(main(sys.argv[1:]))
