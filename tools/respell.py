#!/usr/bin/env python3
"""Brings the names of definitions and lemmas to one spelling: words in snake case, types and facts in camel case.

usage: tools/respell.py [--list] FOLDER..      each FOLDER has crates/; --list only prints the names

Renamed are the names that specs/ and proofs/ declare: definitions, lemmas, fields, constructors. What the code in src/ declares, strings,
the names of goals, of files and of local variables stay. A name is only renamed as a whole word. A lemma that would get the name of a definition gets `_lem`
after it; where two names would fall together otherwise, nothing is written.
"""

import os
import re
import sys

# a word of antt: no space, bracket, comma, semicolon, dot or quote
WORD = re.compile(r"[^\s(){}\[\].,;«»⟦⟧\"]+")
DECLARED = re.compile(r"^(\s*)(?:(?:abbrev|unfoldable|pub|record|data|mutual|axiom)\s+)*([^\s(){}:.,;]+)(?:\s+[({][^:]*:.*)?\s*:(?:\s|$)")
KEYWORDS = {"use", "where", "let", "in", "elim", "unfolding", "open", "module", "mod", "λ", "→", "|", "=", "--", "infixl", "infixr", "infix"}


def files(folder, ends):
    for top, dirs, names in os.walk(os.path.join(folder, "crates")):
        dirs[:] = sorted(d for d in dirs if d not in ("out", "target"))
        for n in sorted(names):
            if n.endswith(ends):
                yield os.path.join(top, n)


def declared(path):
    """The names that a file declares, but for answers and invariants, which have the names of goals."""
    with open(path, encoding="utf-8") as f:
        for line in f:
            m = DECLARED.match(line)
            if not m or m.group(2) in KEYWORDS or line.lstrip().startswith(("--", "use ", "let ", "λ", "(", "|")):
                continue
            if re.search(r":\s*(goal|need|choice|given)\.", line):
                continue
            yield m.group(2)
    with open(path, encoding="utf-8") as f:
        for line in f:
            if line.startswith("use Rattle."):
                yield from re.findall(r" as ([^\s{},]+)", line)


# names that the rule alone would make those of other things
SPELLED = {"Answers-of": "answers_of", "Alone-of": "alone_of", "Numbers-of": "numbers_of", "bit-and": "bit_of_and", "bit-or": "bit_of_or", "bit-xor": "bit_of_xor", "getD-same": "get_or_same"}


def spelled(name):
    """The name in today's spelling. A dash beside a sign, as in `first-++`, joins two names and stays."""
    if name in SPELLED:
        return SPELLED[name]
    if name[0].isupper():
        return re.sub(r"-([a-z])", lambda m: m.group(1).upper(), name)
    dashes = re.sub(r"(?<=[\w'₀-₉])-(?=\w)", "_", name)
    return re.sub(r"(?<=[a-z])([A-Z])", lambda m: "_" + m.group(1).lower(), dashes)


def main(argv):
    only_list = "--list" in argv
    folders = [a for a in argv if a != "--list"] or ["."]
    names = {}
    for folder in folders:
        for p in files(folder, ".rt"):
            with open(p, encoding="utf-8") as f:
                for n in re.findall(r"^ghost use .*", f.read(), re.M):
                    for a in re.findall(r" as ([^\s{},;]+)", n):
                        names.setdefault(a, set()).add(os.path.relpath(p, folder))
        for p in files(folder, ".antt"):
            if f"{os.sep}specs{os.sep}" in p or f"{os.sep}proofs{os.sep}" in p:
                for n in declared(p):
                    names.setdefault(n, set()).add(os.path.relpath(p, folder))
    turn = {n: spelled(n) for n in names if re.search(r"[\w']-\w|^[a-z]\w*[A-Z]", n) and spelled(n) != n}
    # a lemma that would have the name of a definition
    turn = {n: t + "_lem" if t in names and any(p.endswith(".antt") for p in names[n]) else t for n, t in turn.items()}
    bad = False
    by_new = {}
    for n, t in turn.items():
        by_new.setdefault(t, set()).add(n)
    for t, olds in sorted(by_new.items()):
        if t in names and any(p.endswith(".antt") for n in olds for p in names[n]):
            print(f"falls together: {sorted(olds)} and {t}: {sorted(names[t])[:3]}")
            bad = True
        if len(olds) > 1:
            print(f"falls together: {sorted(olds)} as {t}")
            bad = True
    if only_list:
        for n in sorted(turn):
            print(n, turn[n], sorted(names[n])[0])
        return 0
    if bad:
        return 1

    def word(m):
        return turn.get(m.group(0), m.group(0))

    changed = 0
    for folder in folders:
        for p in files(folder, (".antt", ".rt")):
            with open(p, encoding="utf-8") as f:
                text = f.read()
            if p.endswith(".antt"):
                new = "\n".join(l if l.lstrip().startswith("--") else WORD.sub(word, l) for l in text.split("\n"))
            else:
                # hyphens and camel case stand in no name of the code, so that a whole word in these spellings is one of a clause
                new = "\n".join(l if l.lstrip().startswith("//") else re.sub(r"\"[^\"]*\"|" + WORD.pattern, word, l) for l in text.split("\n"))
            if new != text:
                with open(p, "w", encoding="utf-8") as f:
                    f.write(new)
                changed += 1
    print(f"{len(turn)} names in {changed} files")
    return 0


if __name__ == "__main__":
    raise SystemExit(main(sys.argv[1:]))
