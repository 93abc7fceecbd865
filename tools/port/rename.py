#!/usr/bin/env python3
"""Spells the repository's own definitions and lemmas in snake_case, as today's Rattle does.

usage: rename.py ROOT [--write]

Run it once at the top of the repository, everything committed, after copy_links.sh and the toolchain's port.py and before
proving. camelCase words of specs/ and proofs/ (definitions, lemmas, fields, constructors, local variables), and the dashed
names that the repository itself declares, become snake_case in every .antt and .rt file, comments included, and in
must-fail/*.edit. Where a definition and a lemma fall together ('wordBack' and 'word-back'), the lemma takes the name that
BY_HAND gives it. Functions of src/ keep their names. Prints the table, and what falls together.
"""
import collections, glob, os, re, sys

root, WRITE = sys.argv[1], "--write" in sys.argv

# A lemma that would fall together with the definition it speaks of.
BACKS = "current delta outcome place position reader record refusal run sought values word".split()
BY_HAND = {f"{x}-back": f"{x}_restored" for x in BACKS}
BY_HAND |= {"answer_back": "answer_restored", "place-sound": "inside_sound", "current-sound": "fits_sound"}
BY_HAND |= {"both-fit": "fit_both", "from_start": "forward_from_start"}

KEYWORDS = set(
    "abbrev as assumption axiom coe com data deriving do elim fcoe ground hcom in infix infixl infixr let module mod "
    "mutual open package pub record result ruleset unfold unfolding unfoldable use where".split()
)
TOKEN = re.compile(r"--[^\n]*|\"(?:[^\"\\]|\\.)*\"|[^\s(){}.;,@\"«»\[\]\\=]+")
TOP = re.compile(r"(?m)^(?:(?:abbrev|unfoldable|pub) )*([^\s:(){}=|.,]+) : (\S*)")
INNER = re.compile(r"(?m)^ +(?:(?:abbrev|unfoldable|pub) )*([^\s:(){}=|.,λ]+) : ")
CODE = re.compile(r"//[^\n]*|\"(?:[^\"\\]|\\.)*\"|[\wℤℕ]+")
GOAL = re.compile(r"[\w-]+\.(Need-|invariant|decreases)|statement\b|\{M\b|\{t\b|Measures\b")

below = lambda pat: [p for p in sorted(glob.glob(root + "/crates/" + pat, recursive=True)) if "/out/" not in p]
antt = below("*/specs/**/*.antt") + below("*/proofs/**/*.antt")
code = below("*/src/**/*.rt") + below("*/must-fail/*.edit")
read = lambda p: open(p, encoding="utf-8").read()
walks = lambda p: os.path.basename(p) == "Proof.antt"
camel = lambda w: w[0].islower() and re.search(r"[a-z0-9][A-Zℤℕ]", w)
plain = lambda w: re.match(r"^[\w'ℤℕ-]+$", w)


def snake(w):
    w = re.sub(r"(?<=[a-z0-9])([A-Zℤℕ])", lambda m: "_" + (m[1] if m[1] in "ℤℕ" else m[1].lower()), w)
    return w.replace("-", "_")


used, own, foreign = collections.Counter(), {}, set()
for p in antt:
    t = read(p)
    for m in re.finditer(r"(?m)^(?:pub )?use (\S+?)\.\{([^}]*)\}", t):
        if not m[1].startswith("Rattle.") or m[1].startswith("Rattle.std."):
            foreign.update(x.strip().split(" as ")[0] for x in m[2].split(","))
    used.update(m[0] for m in TOKEN.finditer(t) if not m[0].startswith(("--", '"')))
    for m in TOP.finditer(t):
        if not GOAL.match(m[2]):
            own.setdefault(m[1], p)
    if not walks(p):
        for m in INNER.finditer(t):
            own.setdefault(m[1], p)
table = {w: snake(w) for w in used if w not in foreign and plain(w) and (camel(w) or "-" in w and w in own)}
table |= BY_HAND

meet = collections.defaultdict(list)
for w in set(own) | set(table):
    meet[table.get(w, w)].append(w)
for new, words in sorted(meet.items()):
    if len(words) > 1 and any(w in table for w in words):
        print("together:", ", ".join(f"{w} -> {new}" for w in words))
for w, new in sorted(table.items()):
    if new in KEYWORDS or new in foreign:
        print("reserved or the library's:", w, "->", new)


def in_comment(t):
    """A comment's words: only those that nothing but a name of the table can be."""
    return re.sub(r"[\w'ℤℕ-]+", lambda m: table[m[0]] if m[0] in table and (camel(m[0]) or f"`{m[0]}`" in t) else m[0], t)


def in_logic(t, steps):
    """steps: a dashed name behind a dot in an old Proof.antt is a step of the walk, named after a function, and stays."""

    def one(m):
        w = m[0]
        if w.startswith("--"):
            return in_comment(w)
        if steps and w in BY_HAND and t[m.start() - 1 : m.start()] == ".":
            return w
        return table.get(w, w)

    return TOKEN.sub(one, t)


def in_code(t):
    """camelCase words in a .rt file are definitions' alone, since Rust's are snake; a dashed name stands only in a ghost use."""

    def one(m):
        w = m[0]
        if w.startswith("//"):
            return in_comment(w)
        return w if w.startswith('"') or "-" in w else table.get(w, w) if camel(w) else w

    return re.sub(r"(?m)^ghost use [^;]*;", lambda m: in_logic(m[0], False), CODE.sub(one, t))


changed = 0
for p in antt + code:
    t = read(p)
    new = in_logic(t, walks(p)) if p.endswith(".antt") else in_code(t)
    if new != t:
        changed += 1
        if WRITE:
            open(p, "w", encoding="utf-8").write(new)
for w, new in sorted(table.items()):
    print(w, "->", new)
print(len(table), "names,", changed, "files", "written" if WRITE else "would change (--write)")
