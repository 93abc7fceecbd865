#!/usr/bin/env python3
"""Old and new of what the design pass changed, for docs/DESIGN-PASS.md: from the listing that the toolchain's contracts.py makes.

    python3 CONTRACTS.PY OLD . --json | python3 tools/design/changes.py

OLD is a checkout of the page's first line. Functions of programs have no contracts and are left out."""

import json
import sys

PROGRAMS = {"archthimble", "cases", "cases_runs", "cases_reader", "replay"}
listing = json.load(sys.stdin)


def ours(name):
    return name.split()[0] not in PROGRAMS


def block(title, rows):
    print(f"\n### {title}\n\n```text")
    for name, old, new in rows:
        print(name)
        for line in old:
            print(f"  - {line}")
        for line in new:
            print(f"  + {line}")
    print("```")


def clauses(requires, ensures):
    return [f"requires {n} {t}".replace("  ", " ") for n, t in requires] + [
        f"ensures {n} {t}".replace("  ", " ") for n, t in ensures
    ]


block("Signatures", [(n, [o], [w]) for n, o, w in sorted(listing["signatures changed"]) if ours(n)])
block(
    "Contracts",
    [(n, clauses(r, e), clauses(s, f)) for n, r, e, s, f in sorted(listing["contracts changed"]) if ours(n)],
)
block(
    "Definitions and theorems of specs/",
    [(f"{c} {n}", o, w) for c, n, o, w in sorted(listing["definitions"]["changed"])],
)
print("\n### Edits\n\n```text")
for crate, name, old, new in sorted(listing["edits and outputs"]["changed"]):
    if name.endswith(".edit"):
        print(f"{crate} {name.split('/')[-1]}")
        print(f"  - {old.split(' file: ', 1)[-1]}")
        print(f"  + {new.split(' file: ', 1)[-1]}")
print("```")
