#!/usr/bin/env python3
"""Lists the places of src/ that read like an older form of the language, by kind.

usage: python3 tools/places.py [COMMIT]     the working tree, or a commit

A row is a place to read, not a verdict: docs/DESIGN-PASS.md says what was made of each. The kinds are
numbered as there. Tests (`*_tests` and `mod tests`) count only for loops.
"""
import collections
import re
import subprocess
import sys

COMMIT = next((a for a in sys.argv[1:] if a != "--all"), None)


def sh(*a):
    return subprocess.run(a, capture_output=True, text=True, check=True).stdout


def texts(pattern):
    """Each file with such a name, and its text."""
    if COMMIT:
        names = sh("git", "ls-tree", "-r", "--name-only", COMMIT).split("\n")
    else:
        names = sh("git", "ls-files", "-co", "--exclude-standard").split("\n")
    for name in sorted(names):
        if re.fullmatch(pattern, name):
            yield name, sh("git", "show", f"{COMMIT}:{name}") if COMMIT else open(name).read()


FILES = list(texts(r"crates/\w+/src/.*\.rt"))
PLAIN = [(n, t.split("#[cfg(test)]")[0]) for n, t in FILES if "_tests/" not in n]
ROWS = collections.defaultdict(list)


def row(kind, what, where):
    ROWS[kind, what].append(where)


def each(kind, what, pattern, files):
    for name, text in files:
        for m in re.finditer(pattern, text, re.M):
            line = text.count("\n", 0, m.start()) + 1
            found = " ".join(m.group(0).split())
            row(kind, what, f"{name}:{line}: {found[:90]}")


# 1
each(1, "a refusal or an error handed on by a match", r"^ *Err\(\w+\) => (return )?\(?(Err\(|\{\n *return Err)", PLAIN)
each(1, "a let-else that only refuses", r"^ *let (Some|Ok)\(.*\) = [^;{]* else \{\n *return (Err\(.*\)|None);\n *\};", PLAIN)
each(1, "a case tested by a let-else that only refuses", r"^ *let (\w+::)+\w+(\(.*\))? = [^;{]* else \{\n *return (Err\(.*\)|None);\n *\};", PLAIN)
each(1, "a bool that says whether a call worked", r"^ *(pub(\(crate\))? )?fn \w+[^{]*-> (anyhow::|io::)?Result<bool", PLAIN)

# 2: functions of one shape
WORD = re.compile(r'"[^"]*"|\d[\w]*|[A-Za-z_]\w*|\S')
KEYS = set("let mut if else match for in return while fn pub self Self Ok Err Some None ref as impl".split())
FN = re.compile(r"^( *)(?:pub(?:\(crate\))? )?fn (\w+)", re.M)


def functions(files):
    """Each function with its file, name, signature and body."""
    for name, text in files:
        for m in FN.finditer(text):
            depth = m.group(1)
            end = text.find(f"\n{depth}}}", m.end())
            part = text[m.start():end]
            cut = re.search(rf"^{depth}\{{$", part, re.M)
            at = cut.start() if cut else part.find("{\n")
            if ";\n" not in part[:at]:
                yield name, m.group(2), part[:at], part[at:]


NUMBERED = r"\d+ => Some\(\w+::\w+\),|(?:\w+::)+\w+(?:\(_\))? => \d+,|missing\(\d\)"
for name, fn, head, body in functions(PLAIN):
    if len(re.findall(NUMBERED, body)) > 1:
        row(1, "numbers for kinds", f"{name}: {fn}")

SHAPES = collections.defaultdict(list)
for name, fn, head, body in functions(PLAIN):
    words = WORD.findall(re.sub(r"//.*", "", body))
    if len(words) < 12 or "{" not in body:
        continue
    shape = tuple(w if w in KEYS or not re.match(r'[\w"]', w) else ("N" if w[0].isdigit() else "I") for w in words)
    SHAPES[shape].append(f"{name}: {fn}")
for shape, found in SHAPES.items():
    if len(found) > 1:
        row(2, "functions of one shape", " = ".join(found))
each(2, "the same trait for two aliases of one type", r"^impl Target for \w+", PLAIN)

# 3
each(3, "a loop over a range or a condition", r"^ *(for \w+ in [^{]*\.\.[^{]*|while [^{]*|loop )\{", FILES)
each(3, "a count kept by hand", r"^ *\w+ (\+= 1;|= \w+\.saturating_add\(1\);)", FILES)
each(3, "a division rounded up by hand", r"\(.*[+] \w+ - 1\) / \w+|saturating_sub\(1\) / ", PLAIN)

# 4
each(4, "words by a function", r"^ *(pub(\(crate\))? )?fn \w+\([^)]*\) -> (&'\w+ str|char)", PLAIN)
for name, fn, head, body in functions(PLAIN):
    cases = re.findall(r"=> (?:\d+|Some\(\w+::\w+\)),", body)
    if len(cases) > 1 and re.search(r"-> (u8|u32|Option<\w+>)", head):
        row(4, "a conversion by a function of cases", f"{name}: {fn}")
each(4, "a number between two bounds by hand", r"\w+ <= \w+(\.\w+)? && \w+(\.\w+)? <= \w+|\w+ < \w+ \|\| \w+ > \w+", PLAIN)
each(4, "bytes put in place one by one", r"^ *\w+\[\d+\] = \w+;", PLAIN)
each(4, "a derived trait written by hand", r"^impl.* (PartialEq|Eq|Ord|PartialOrd|Clone|Copy|Debug|Default|Hash) for", PLAIN)

# 5: for two parameters of three functions, all that these functions have in common
PARAM = re.compile(r"(\w+): ([^,()]+(?:\([^()]*\)[^,()]*)?)")
SIGNS = collections.defaultdict(list)
CLAUSES = collections.defaultdict(list)
for name, fn, head, body in functions(PLAIN):
    crate = name.split("/")[1]
    sig = re.split(r"\n *(?:requires|ensures)\b", head)[0]
    sig = re.sub(r"<[^<>()]*>", "", sig[sig.find("("):].split(" -> ")[0])
    params = frozenset(f"{a}: {re.sub(chr(39) + r'[a-z_]+ ?', '', b).strip()}" for a, b in PARAM.findall(sig))
    SIGNS[crate].append((fn, params))
    for clause in re.findall(r"requires (?:\w+ )?\{ (.*) \}$", head, re.M):
        CLAUSES[crate, clause].append(fn)
for crate, signs in sorted(SIGNS.items()):
    common = {}
    for _, one in signs:
        for _, other in signs:
            both = one & other
            fns = [fn for fn, params in signs if both <= params]
            if len(both) > 1 and len(fns) > 2:
                common[frozenset.intersection(*(p for _, p in signs if both <= p))] = fns
    for params, fns in sorted(common.items(), key=lambda x: sorted(x[0])):
        row(5, "parameters together in three functions or more", f"{crate}: {', '.join(sorted(params))}: {', '.join(fns)}")
for (crate, clause), fns in sorted(CLAUSES.items()):
    if len(fns) > 2:
        row(5, "one condition in three functions or more", f"{crate}: {clause}: {', '.join(fns)}")

# 6
STRUCT = re.compile(r"^pub struct (\w+)[^{;]*\{(.*?)^\}", re.M | re.S)
for name, text in PLAIN:
    for m in STRUCT.finditer(text):
        fields = re.findall(r"^    (?:pub(?:\(crate\))? )?(\w+): (.*),$", m.group(2), re.M)
        arrays = [f for f, t in fields if re.match(r"\[.*; \w+\]|Vec<", t)]
        counts = [f for f, t in fields if f in ("count", "len", "made", "locks")]
        if len(arrays) > 1:
            row(6, "lists side by side in a struct", f"{name}: {m.group(1)}: {', '.join(arrays)}")
        if arrays and counts:
            row(6, "a list with a count beside it", f"{name}: {m.group(1)}: {', '.join(arrays + counts)}")
each(6, "a list with a count beside it", r"\{ \w+: \[.*; \d+\], count: usize \}|: &\[\w+; \d+\], count: usize", PLAIN)
each(6, "lists side by side in a function", r"for i in 0\.\.(\w+\.len\(\)|\d+usize)", FILES)

# 7
for name, fn, head, body in functions(PLAIN):
    arms = re.findall(r"=> (?:\{\n *let \w+ = [^\n]*\n *)?([a-z_][\w:]*)\(([^\n]*)", body)
    arms = [(a, b) for a, b in arms if a not in ("write", "matches")]
    if len(arms) > 1:
        row(7, "a match whose cases make calls", f"{name}: {fn}: {', '.join(sorted({a for a, _ in arms}))}")

# 8
for name, text in texts(r"crates/\w+/proofs/.*\.antt"):
    crate = name.split("/")[1]
    if name.endswith("/Answers.antt"):
        for m in re.finditer(r"^pub \S+ : goal\.", text, re.M):
            row(8, "an answer", f"{name}: {m.group(0)}")
    elif "/proofs/" in name and name.count("/") == 3:
        for m in re.finditer(r"^(pub )?[\w⁻¹'-]+ : ", text, re.M):
            row(8, "a lemma of proofs/", f"{name}: {m.group(0)}")

last = None
for (kind, what), found in sorted(ROWS.items()):
    if kind != last:
        print(f"\n{kind}. {sum(len(f) for (k, _), f in ROWS.items() if k == kind)} rows")
        last = kind
    print(f"  {what}: {len(found)}")
    if kind < 8 or "--all" in sys.argv:
        for f in found:
            print(f"    {f}")
