#!/usr/bin/env python3
"""Brings this repository's own definitions, lemmas, fields and constructors to the spelling of today's Rattle.

usage: python3 tools/spell_names.py [--look]      at the top of the repository, right after port.py

A word is in snake case: `recordStep` becomes `record_step` and `first-append` becomes `first_append`. Types and modules keep their
capitals. A name of the library, a goal of a proof and a step of a function's code keep theirs. --look writes nothing and lists
the names that would fall together in a file.
"""

import collections
import os
import re
import sys

TOKEN = re.compile(r"[^\W\d][\w'\-]*")
DECLARED = re.compile(r"^\s*(?:(?:pub|abbrev|unfoldable|pattern|ruleset)\s+)*([^\W\d][\w'\-]*)(?:\s+[({][^:=→]*(?::[^=]*)?[)}]|\s+\{[^}]*\})*\s:(?:\s|$)")
RULESET = re.compile(r"^\s*(?:pub\s+)?ruleset\s+(?:pub\s+)?([^\W\d][\w'\-]*)")
AS = re.compile(r"^\s*(?:pub\s+)?use\s+([\w.\u25cc\u00b7'\-]+)\s+as\s+([^\W\d][\w'\-]*)\s*$", re.M)
USE = re.compile(r"^\s*(?:pub\s+)?(?:ghost\s+)?use\s+([\w.◌·'\-]+)\.\{([^}]*)\}")
GOAL = re.compile(r":\s*tie\.")
# what a plain rule would make of these is no word
OF_LIBRARY = {"getD": "get_or"}
# names that a field of the code would hide
HIDDEN = {"leastAt": "place_of_least", "greatestAt": "place_of_greatest"}
# lemmas and fields that port.py spelled as a definition will be: in these files they take another name
BESIDE = [
    ("output/proofs/BigEndian", "two_bytes", "two_bytes_lem"),
    ("output/proofs/BigEndian", "four_bytes", "four_bytes_lem"),
    ("line/(specs|proofs)/Demands", "whole_before", "whole_before_is"),
    ("line/(specs|proofs)/Demands", "whole-after", "whole_after_is"),
    ("combining/proofs/Tests", "as_long", "as_long_lem"),
    ("algebra/proofs/orbits/", "Has-one", "has_one"),
    ("volume/proofs/consistent/TestLaws", "row_ends", "row_ends_lem"),
    ("faults/proofs/FaultLaws", "index_in", "index_in_lem"),
    ("file_format/proofs/Parsing", "list_at", "list_at_lem"),
]


def texts(root):
    for folder, dirs, files in os.walk(os.path.join(root, "crates")):
        dirs[:] = sorted(d for d in dirs if d != "out")
        for f in sorted(files):
            if f.endswith((".antt", ".rt", ".edit")):
                yield os.path.join(folder, f)


def snake(segment):
    if segment in OF_LIBRARY or segment in HIDDEN:
        return OF_LIBRARY.get(segment) or HIDDEN[segment]
    if segment[:1].isupper():
        return segment
    return re.sub(r"(?<=[a-z0-9'])(?=[A-Z])", "_", segment).lower() if re.search(r"[A-Z]", segment) else segment


def spelled(name):
    tail = "'" * (len(name) - len(name.rstrip("'")))
    parts = [snake(p) for p in name.rstrip("'").split("-")]
    return "_".join(p for p in parts if p) + tail


def split_names(text):
    return [w.strip().split(" as ")[-1].strip() for w in text.split(",") if w.strip()] + [w.strip().split(" as ")[0].strip() for w in text.split(",") if w.strip()]


def own_module(module):
    parts = module.split(".")
    return parts[0] == "Rattle" and len(parts) > 1 and os.path.isdir(os.path.join("crates", parts[1]))


def read(root):
    own, borrowed, contents = set(), {}, {}
    for path in texts(root):
        with open(path, encoding="utf-8") as f:
            contents[path] = f.read()
        names = set()
        for line in re.sub(r"\.\{([^}]*)\}", lambda m: ".{" + m.group(1).replace("\n", " ") + "}", contents[path]).splitlines():
            m = USE.match(line)
            if m:
                if not own_module(m.group(1)):
                    names.update(split_names(m.group(2)))
                continue
            if path.endswith(".antt") and not line.lstrip().startswith("--") and not GOAL.search(line):
                m = DECLARED.match(line) or RULESET.match(line)
                if m:
                    own.add(m.group(1))
        borrowed[path] = names
    # what algebra's Prelude and the like hand on from the library
    handed = set()
    for path, names in borrowed.items():
        for line in re.sub(r"\.\{([^}]*)\}", lambda m: ".{" + m.group(1).replace("\n", " ") + "}", contents[path]).splitlines():
            if line.startswith("pub use"):
                m = USE.match(line)
                if m and not own_module(m.group(1)):
                    handed.update(split_names(m.group(2)))
    return own, borrowed, handed, contents


def spelling(own, borrowed):
    """Each name and its new spelling. A lemma or a field that would have the name of a definition, here or in the library, gets _lem."""
    taken = {spelled(n) for n in own if "-" not in n}.union(*borrowed.values())
    new = {}
    for name in own:
        to = spelled(name)
        if "-" in name and to in taken:
            to += "_lem"
        if to != name:
            new[name] = to
    return new


def turned(new, borrowed, handed, path, text, found=None):
    outside = tuple(alias + "." for module, alias in AS.findall(text) if not own_module(module)) + ("tie.",)

    def word(m):
        name = m.group(0)
        start = text[max(0, m.start() - 40) : m.start()]
        kept = name not in new or name in borrowed or name in handed or start.endswith(outside)
        to = name if kept else new[name]
        if found is not None:
            found[to].add(name)
        return to

    imports = re.findall(r"output\.proofs\.BigEndian\.\{([^}]*)\}", text)
    for where, name, to in BESIDE:
        if re.search(where, path) or where.endswith("BigEndian") and any(re.search(rf"\b{name}\b", i) for i in imports):
            text = re.sub(rf"(?<![\w'.-]){name}(?![\w'.-])", to, text)
    return TOKEN.sub(word, text)


def main(argv):
    look = argv == ["--look"]
    own, borrowed, handed, contents = read(".")
    new = spelling(own, borrowed)
    for path, text in contents.items():
        found = collections.defaultdict(set)
        to = turned(new, borrowed[path], handed, path, text, found)
        if look:
            for name, olds in sorted(found.items()):
                if len(olds) > 1:
                    print(f"{path}: {name}: {' '.join(sorted(olds))}")
        elif to != text:
            with open(path, "w", encoding="utf-8") as f:
                f.write(to)
    print(len(new), "names")
    return 0


if __name__ == "__main__":
    raise SystemExit(main(sys.argv[1:]))
