#!/usr/bin/env python3
"""Counts the places of docs/DESIGN-PASS.md in crates/*/src/*.rt: by point and crate, and each of them with --list.

usage (at the repository's top): tools/design/places.py [--list]

A place is one item (a function, a type or a constant) in which a search for a point finds something; an item counts once
for a point, however much of it is found. The searches are textual and know nothing of types: what they find is to be
looked at, and may be right as it stands. Point 8 counts the FUNCTION folders of crates/*/proofs (those that hold an
Answers.antt, Invariants.antt or Proof.antt), the lines in them, and the lines of the crate's other files of proofs.
"""
import collections, difflib, glob, os, re, sys

Item = collections.namedtuple("Item", "crate file line kind name derives parameters clauses text")
START = re.compile(r'( *)(?:pub(?:\(crate\))? )?(?:extern "C" )?(fn|struct|enum|const|impl|trait)\b(?:<[^>]*>)? (?:.* for )?(\w+)')
NONE = {"Refused", "Out", "Nothing", "Nowhere", "NotCovered", "Over", "Done", "Stop", "Torn"}
WORD = re.compile(r'b?"(?:[^"\\]|\\.)*"|\w+|[^\w\s]')
KEPT = set("as else fn for if impl in let loop match mut return self while usize u64 u8 i64 i8 bool rt say item Ok Err".split())

# The plain searches: point, kinds of items, what is found, expression.
SEARCHES = [(point, kinds, what, re.compile(expression, re.M)) for point, kinds, what, expression in [
    (1, "struct", "a flag beside a value", r": bool,$"),
    (1, "fn", "a flag beside a value", r"-> \(.*\bbool\)|\.(good|more)\b|\b(good|more): (true|false)"),
    (1, "fn", "a flag for a refusal", r"&mut [^{]*-> bool( \{)?$"),
    (1, "fn", "a number for a kind", r"\b(kind|what) (==|!=|<=?|>=?) \w|\b5 < kind|\bmatch n \{\s*\d+ =>|\bnumber != 0\b"),
    (1, "fn", "a number for a kind", r"if n == 0 \{\s*return From|if n <= \d+ \{[^}]*\}\s*if n <=|Place::\w+(\(_\))? => \d,|\], kind\)"),
    (1, "fn", "a number for a kind", r"\+ 2\] = \d;|\blay\(ws, r, \d"),
    (1, "const", "a number for a kind", r"const (OPEN|SEEK|SEEK_SIGNED|READ|AGREE|DIFFER|ALTERED):"),
    (1, "fn const", "a mark for none", r"\b(LOST|SHORT)\b|\.high == 16 \{|\b15 < \w|\bhigh: 16|^    16$"),
    (1, "fn", "a mark for none", r"\b(body|entry): &(mut )?\[u8\][^{]*-> usize( \{)?$"),
    (3, "fn", "an index counted by hand", r"\bwhile \w+ < \w|\bfor \w+ in \w+\.\."),
    (3, "fn", "a loop moved on by hand", r"\bloop \{"),
    (3, "fn", "unrolled by hand", r"\[7\]\);\s|\[\w+\]\) as usize \+ 256"),
    (4, "fn", "printed by hand", r"\b(say|item|number|signed|numbered|refused|row|aligned)\(\s*&?rt,|write_all|\bprint!\(rt; .\{n[:\w>]*\}"),
    (4, "fn", "compared by hand", r"\breturn (true|false);|\[i\] != \w+\[i\]|\bif \w+ != (lo|hi) \{|\bb'.' <= b\b"),
    (4, "fn", "compared by hand", r"\bif \w+ <=? [^{]*\{\s*(return )?([\w.()]+|\w+ - \w+);?\s*\}|\.good \{\s*if "),
    (4, "fn", "converted by hand", r"\bwide\(|\bas (u64|i64|i8|u8|usize)\b|\bDelta\b|: By\b|\bBy::"),
    (4, "fn", "copied by hand", r"\b(\w+): \w+\.\1,[^;]*\b(\w+): \w+\.\2,|\blet (\w+) = \w+\.\w+;\s*match \3 \{"),
    (4, "fn const", "the largest number by hand", r"0xffff_ffff_ffff_ffff|18446744073709551615|usize::MAX"),
    (4, "enum", "a number of the library by hand", r"Up\(u64\)|Signed\(i64\)"),
    (6, "fn", "a buffer of a fixed size", r"\[(0x)?[0-9a-f]+u(8|64); \d+\]"),
    (6, "fn struct", "a length beside it", r"\b(list|s|words): &(mut )?\[u\d+\],\s*n: usize|\bn: usize, s: &|\bn: usize,$|\bgot\.n\b"),
    (6, "fn struct", "parts in place of an array", r"\ba: \w+,\s*(pub )?b: \w+,\s*(pub )?c: \w+|\bby: usize,"),
    (6, "enum fn", "parts in place of an array", r"\bOne\(\w+\)"),
    (6, "fn", "an array laid or read part by part", r"(\w+)\[.+\] = .*\n\s*\1\[.+\] = .*\n\s*\1\[|3 \* k \+ 1|\bcounts\[|\bnote\("),
    (6, "fn", "an index tested by hand", r"\bif \w+ <=? (\w+\.len\(\)|512|4097) \{"),
    (6, "fn", "text as bytes", r"\b(name|text|before|unit|example|word): &\[u8\]"),
    (6, "fn", "the size of an array in a parameter", r": &(mut )?\[u(8|64); \d+\]"),
    (7, "fn", "a step chosen by number or text", r"\bif (kind|what|word) == \w[^}]*return [\w:]*\b[a-z]\w*\(|if word == b\"|\bwhat <= "),
    (7, "fn", "a step chosen by number or text", r"\bmatch words \{|\bif n <= \d+ \{[^}]*\}\s*if n <= |\bwidth: usize"),
]]

def items(path):
    """The items of a file without comments and attributes; a method is named Type::method."""
    lines = [re.sub(r"^\s*//.*", "", line) for line in open(path, encoding="utf-8").read().split("\n")]
    starts = [(at, START.match(line)) for at, line in enumerate(lines) if START.match(line)]
    for (at, m), (end, _) in zip(starts, starts[1:] + [(len(lines), None)]):
        owner = m[3] + "::" if m[2] == "impl" else owner if m[1] else ""
        text = [line for line in lines[at:end] if not re.match(r"\s*#\[", line)]
        clauses = [line for line in text if re.match(r"\s*(requires|ensures)\b", line)]
        text = "\n".join(line for line in text if line not in clauses)
        if m[2] != "impl":
            head = re.sub(r"\s+", " ", text[:text.find("{")])
            fields = re.findall(r"(\w+: [^,]+),", text) if m[2] == "struct" else []
            parameters = fields or re.findall(r"[(,] ?((?!rt:)\w+: (?:\([^()]*\)|[^,()])+)", head)
            derives = " ".join(line for line in lines[max(0, at - 2):at] if "derive(" in line)
            name = owner * bool(m[1]) + m[3]
            yield Item(path.split("/")[1], path, at + 1, m[2], name, derives, tuple(parameters), tuple(clauses), text)

def facts(item):
    """The parts of a function's clauses, without .old, .now and self."""
    for clause in item.clauses:
        text = re.sub(r"\.(old|now)\b|\bself\.", "", clause[clause.find("{") + 1:clause.rfind("}")])
        yield from (re.sub(r"^\((.*)\)$", r"\1", part.strip()) for part in text.split(" × "))

def shape(item):
    """A function's words, one mark in place of each name, number or text."""
    words = WORD.findall(item.text[item.text.find("("):])
    return ["1" if w[0].isdigit() else '"' if '"' in w else w if w in KEPT or not w[0].isalpha() else "x" for w in words]

def twins(functions):
    """Functions of one shape; of two that have one name, half as much of it is enough."""
    shapes = [(item, shape(item)) for item in functions if item.name != "main" and not lists(item)]
    for at, (a, one) in enumerate(shapes):
        for b, two in shapes[at + 1:]:
            least = .6 if a.name == b.name and a.file != b.file else .9 if min(len(one), len(two)) > 25 else 2
            match = difflib.SequenceMatcher(None, one, two, False)
            if min(match.real_quick_ratio(), match.quick_ratio()) > least and match.ratio() > least:
                yield 2, a, f"as {b.name} of {b.file}"
                yield 2, b, f"as {a.name} of {a.file}"

def lists(item):
    """Only calls, one after another: a list of cases, or of lines that are printed."""
    return item.text.count(")?") > 2 and not re.search(r"\b(let|match|if|for) ", item.text)

def together(every):
    """Facts, and two parameters or fields side by side, that stand in three items of other names; three that stand in two."""
    groups = collections.defaultdict(list)
    for item in every:
        of = item.parameters
        runs = [(", ".join(run), 4 - len(run)) for run in [*zip(of, of[1:]), *zip(of, of[1:], of[2:])]
                if not all(re.match(r"\w: u", p) for p in run)]
        for what, n in sorted({*((fact, 2) for fact in facts(item)), *runs}):
            groups[what, n].append(item)
    for (what, n), group in groups.items():
        if len({item.name for item in group}) > n:
            yield from ((5, item, what) for item in group)

def places(every):
    functions = [item for item in every if item.kind == "fn"]
    for item in every:
        for point, kinds, what, expression in SEARCHES:
            if item.kind in kinds.split() and expression.search(item.text):
                yield point, item, what
        if item.kind in ("struct", "enum") and not re.search(r"Debug.*PartialEq.*Eq", item.derives):
            yield 4, item, "no Debug, PartialEq, Eq"
        if item.kind == "fn" and re.search(rf"(?<![\w.:&]){item.name}\(", item.text.split("{", 1)[-1]):
            yield 3, item, "a call of itself"
        variants = re.findall(r"^    (\w+)([(,])", item.text, re.M) if item.kind == "enum" else []
        none = {name for name, _ in variants} & NONE and len(variants) < 5
        if none or sorted(mark for _, mark in variants) == ["(", ","]:
            yield 1, item, "an own Option or Result"
            if none:
                yield from ((1, use, "with " + item.name) for use in functions if re.search(rf"\b{item.name}\b", use.text))
    yield from twins(functions)
    yield from together(every)

def main():
    every = [item for path in sorted(glob.glob("crates/*/src/**/*.rt", recursive=True)) for item in items(path)]
    found = collections.defaultdict(list)
    for point, item, what in places(every):
        if what not in found[point, item]:
            found[point, item].append(what)
    if "--list" in sys.argv:
        for (point, item), what in sorted(found.items(), key=lambda p: (p[0][0], p[0][1].file, p[0][1].line)):
            print(f"{point} {item.file}:{item.line}: {item.name}: {'; '.join(what)}")
    print("crate".ljust(14) + "".join(f"{point:>6}" for point in range(1, 8)) + "   8: folders lines others")
    sums = [0] * 10
    for crate in sorted(path.split("/")[1] for path in glob.glob("crates/*/src")):
        row = [sum(1 for point, item in found if (point, item.crate) == (n, crate)) for n in range(1, 8)]
        proofs = glob.glob(f"crates/{crate}/proofs/**/*.antt", recursive=True)
        inside = [p for p in proofs if os.path.basename(p) in ("Answers.antt", "Invariants.antt", "Proof.antt")]
        lines = {p: open(p, encoding="utf-8").read().count("\n") for p in proofs}
        row += [len({os.path.dirname(p) for p in inside}), sum(lines[p] for p in inside)]
        row += [sum(lines.values()) - row[-1]]
        sums = [a + b for a, b in zip(sums, row)]
        print(crate.ljust(14) + "".join(f"{n:>6}" for n in row[:7]) + "  {:>10} {:>5} {:>6}".format(*row[7:]))
    print("in all".ljust(14) + "".join(f"{n:>6}" for n in sums[:7]) + "  {:>10} {:>5} {:>6}".format(*sums[7:]))

main()
