#!/usr/bin/env python3
"""Counts, in the code below crates/, the places that docs/DESIGN-PASS.md speaks of: design_counts.py [TOP]."""
import collections
import pathlib
import re
import sys

FUNCTION = re.compile(r'^\s*(?:pub )?(?:extern "C" )?fn (\w+)(.*?)\n\s*\{\n', re.S | re.M)
REQUIRES = re.compile(r"requires[^{]*\{(.*?)\}\s*(?=\n\s*(?:requires|ensures|$)|$)", re.S)
GROUPS = {
    "re, im": r"re: &'a \[u32; 2880\],\s*im: &'a \[u32; 2880\]",
    "re, im, tan": r"im: &'a \[u32; 2880\],\s*tan: &'a \[u32; 1440\]",
    "m, cell, volume": r"m: u32,\s*cell: UnitCell,.*volume: &\[u32\]",
    "cell, volume": r"cell: UnitCell,.*volume: &",
    "cell, map": r"cell: UnitCell,.*map: &\[i64\]",
    "out, at": r"out: &mut \[u8\],\s*at: usize",
    "volume, scratch": r"volume: &mut \[u32\],\s*scratch: &mut \[u32\]",
    "modulus, cell": r"modulus: u32,\s*cell: UnitCell",
    "valid, state": r"valid: bool,\s*state: u32",
}


def functions(sources):
    """The signature and the clauses of each function, on one line."""
    for text in sources:
        for _, body in FUNCTION.findall(text):
            yield " ".join(body.split()), body


def facts(body):
    """What the requires clauses of a function ask, taken apart."""
    found = set()
    for clause in REQUIRES.findall(body):
        found.update(fact.strip() for fact in re.split(r"\s×\s", " ".join(clause.split())))
    return found


def main():
    top = pathlib.Path(sys.argv[1] if len(sys.argv) > 1 else ".")
    sources = [path.read_text() for path in sorted(top.glob("crates/*/src/**/*.rt"))]
    lines = [line for text in sources for line in text.split("\n")]

    def count(what, pattern):
        print("%5d  %s" % (sum(1 for line in lines if re.search(pattern, line)), what))

    count("1 enums", r"^\s*(pub )?enum ")
    for name in ("kind", "direction", "group", "modulus", "m", "state"):
        count("1 numbers for kinds: %s: u32" % name, r"\b%s: u32" % name)
    count("3 while and loop", r"^\s*(while|loop)\b")
    count("3 counters moved by hand", r"^\s*\w+ \+= 1;")
    count("3 for", r"^\s*for\b")
    asked, together = collections.Counter(), collections.Counter()
    for line, body in functions(sources):
        asked.update(facts(body))
        signature = re.split(r"requires|ensures", body)[0]
        together.update(name for name, pattern in GROUPS.items() if re.search(pattern, signature, re.S))
    print("%5d  5 facts that three or more functions ask" % sum(1 for n in asked.values() if n >= 3))
    for fact, number in asked.most_common(12):
        print("%5d    %s" % (number, fact))
    for name, number in together.most_common():
        print("%5d  5 parameters together: %s" % (number, name))
    proofs = [path for path in top.glob("crates/*/proofs/**/*.antt")]
    for name in ("Proof", "Answers", "Invariants"):
        print("%5d  8 files %s.antt" % (sum(1 for path in proofs if path.name == name + ".antt"), name))
    print("%5d  8 lines of proofs" % sum(len(path.read_text().split("\n")) - 1 for path in proofs))


if __name__ == "__main__":
    main()
