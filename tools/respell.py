#!/usr/bin/env python3
"""Spells the repository's own definitions and lemmas as today's library does.

usage: python3 tools/respell.py        at the top of the repository, once, right after the kit's port.py

A name that an .antt file of specs/ or proofs/ declares becomes snake case: `lastRound` is `last_round`, and
`rounds-back` is `rounds_back`. A dash stays where it joins two definitions, as in `xored-length`. Names that begin
with a capital are types, or letters of the standards (`L`, `LSX`), and keep it. Goals, which Rattle names, keep
their names, and so does what Rust declares. Strings, inputs and outputs are not touched.
Where a lemma or a field would get a definition's name it ends in `_lem`; it stops where other names would fall together.
"""
import os
import re
import sys

SIGNATURE = re.compile(r"^\s*((?:(?:pattern|unfoldable|abbrev|pub)\s+)*)([^\s(){}.;,@\"«»]+)\s*:\s+(.*)$")
WORD = re.compile(r"[^\s(){}.;,@\"«»`|\[\]]+")
STRING = re.compile(r'b?"(?:[^"\\\n]|\\.)*"')
GOAL = re.compile(r"^(?:goal|need)\.")
# words of the library that a dash may join
LIBRARY = {"length", "take", "drop", "set", "get_or", "append", "replicate", "reverse", "map", "bit_xor"}


def files(ends):
    for top in ("crates", "docs"):
        for folder, dirs, names in os.walk(top):
            dirs[:] = sorted(d for d in dirs if d not in ("out", "data"))
            for name in sorted(names):
                if name.endswith(ends):
                    yield os.path.join(folder, name)
    if ".md" in ends:
        yield "README.md"


def read(path):
    with open(path, encoding="utf-8") as f:
        return f.read()


def declared():
    """Own names, each with whether it computes, or is a fact or a field; and the words that a dash may join."""
    names, joined = {}, set(LIBRARY)
    for path in files((".antt",)):
        for line in read(path).split("\n"):
            word = line.strip()
            if word.startswith(("--", "let ", "use ", "unfolding ", "|")):
                continue
            m = SIGNATURE.match(line)
            if m and m.group(2) not in ("_", "λ") and not GOAL.match(m.group(3)):
                computes = "abbrev" in m.group(1) or "unfoldable" in m.group(1)
                names[m.group(2)] = names.get(m.group(2), False) or computes
                if computes and "pub" in m.group(1):
                    joined.add(snake(m.group(2)))
    return names, joined


def snake(word):
    """A camel-case word in snake case; a word that begins with a capital stays."""
    if not word or not word[0].islower():
        return word
    return re.sub(r"(?<=[a-z0-9])([A-Z])", lambda m: "_" + m.group(1).lower(), word)


def table(names, joined):
    new = {}
    for name in names:
        parts = [snake(p) for p in name.split("-")]
        made = parts[0]
        for part in parts[1:]:
            made += ("-" if made in joined and part in joined else "_") + part
        made = made.replace("′", "'")
        if made != name:
            new[name] = made
    return new


def main():
    names, joined = declared()
    new = table(names, joined)
    taken = {}
    for name in names:
        taken.setdefault(new.get(name, name), set()).add(name)
    together = False
    lemmas = set()
    for to, from_ in sorted(taken.items()):
        proved = {n for n in from_ if not names[n]}
        if len(proved) > 1:
            proved = {n for n in proved if "-" in n}
        if len(from_) > 1 and (len(proved) != 1 or len(from_) != 2 or to + "_lem" in taken):
            together = True
            print(f"fall together: {to}: {', '.join(sorted(from_))}", file=sys.stderr)
        elif len(from_) > 1:
            lemmas |= proved
            new[min(proved)] = to + "_lem"
    if together:
        return 1

    def word(m):
        name = m.group(0)
        # a plain lemma's name may also be a Rust function's, which is cited behind a dot
        behind = m.start() > 0 and m.string[m.start() - 1] == "."
        return name if name in lemmas and "-" not in name and (behind or not antt) else new.get(name, name)

    def code(text):
        return WORD.sub(word, text)

    turned = 0
    for path in files((".antt", ".rt", ".md", ".edit")):
        text = read(path)
        antt = path.endswith(".antt")
        if path.endswith(".rt"):
            out, at = [], 0
            for s in STRING.finditer(text):
                out += [code(text[at : s.start()]), s.group(0)]
                at = s.end()
            made = "".join(out) + code(text[at:])
        else:
            made = code(text)
        if made != text:
            with open(path, "w", encoding="utf-8") as f:
                f.write(made)
            turned += 1
    if "--list" in sys.argv:
        for a, b in sorted(new.items()):
            print(f"{a}\t{b}")
    print(f"respell: {len(new)} names, {turned} files")
    return 0


if __name__ == "__main__":
    sys.exit(main())
