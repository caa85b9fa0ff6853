#!/usr/bin/env python3
"""Holds the reading list of docs/READING.md to the contracts.

The list promises that with its files one can compute every answer, and has every statement. So from the names in the contracts of the public
calls, and in those of the functions that do nothing and promise a statement, every definition that they are made of is followed, name by name: a
file that has one of them must be listed, and a file that is listed must be there. It prints what is missing, and at its end how many
definitions it followed.
"""
import glob
import os
import re
import sys

READING = "docs/READING.md"
# Every function of the C interface is a public call, and these have no C name.
CALLS = {"print_file", "map_text", "replay"}
FUNCTION = re.compile(r"\bpub (?:extern \"C\" )?fn (\w+)\((.*?)\n *\{(\}|)\n", re.S)
USE = re.compile(r"^\s*(?:(?:ghost|pub|unfoldable|abbrev) )*use ([^\s{;]+?)(?:\.\{(.*)\}|( as \S+))?;?\s*$")
LIBRARY = re.compile(r"^Rattle\.(\w+)\.specs\.(.+)$")
DECLARED = re.compile(r"^(\s*)(?:(?:abbrev|unfoldable|pub|record|data) )+(\S+)")
MEMBER = re.compile(r"^\s+(?:pub )?([^\s:(]+) :")
TOKEN = re.compile(r"[^\s()\[\]{}⟨⟩,;.«»]+")


class Module:
    """The names of a file: where each comes from, and the text of those that it defines itself."""

    def __init__(self, path):
        self.path, self.imported, self.qualified, self.text = path, {}, {}, {}
        block, names = [], []
        for line in open(path, encoding="utf-8"):
            line = line.rstrip("\n")
            if re.match(r"^\s*--", line):
                continue
            use = USE.match(line)
            declared = DECLARED.match(line)
            if use:
                self.use(*use.groups())
            elif re.match(r"^\s*module ", line):
                self.close(block, names)
                block, names = [], []
            elif declared and not (block and len(declared.group(1)) > self.depth):
                self.close(block, names)
                block, names, self.depth = [line], [declared.group(2).rstrip(":")], len(declared.group(1))
            elif block:
                block.append(line)
                member = MEMBER.match(line)
                if member:
                    names.append(member.group(1))
        self.close(block, names)

    def close(self, block, names):
        for name in names:
            self.text[name] = self.text.get(name, "") + "\n".join(block) + "\n"

    def use(self, module, names, alias):
        if alias:
            self.qualified[alias[4:]] = module
        for name in (names or "").split(","):
            if name.strip():
                old, _, new = name.strip().partition(" as ")
                self.imported[(new or old).split(".")[-1]] = (module, old)


modules = {}


def module_at(path):
    if path not in modules:
        modules[path] = Module(path)
    return modules[path]


def file_of(module):
    """The file of a module of specs/, if it is one that is written and not one that the toolchain has or declares."""
    library = LIBRARY.match(module)
    if not library or library.group(1) == "std" or library.group(2).startswith("declared"):
        return None
    parts = library.group(2).split(".")
    for count in range(len(parts), 0, -1):
        path = f"crates/{library.group(1)}/specs/{'/'.join(parts[:count])}.antt"
        if os.path.exists(path):
            return path
    sys.exit(f"no file of {module}")


def contracts(path):
    """The public calls of a file, and its functions that do nothing and promise a statement, each with its contract."""
    for name, contract, empty in FUNCTION.findall(open(path, encoding="utf-8").read()):
        if path.startswith(("crates/exported/", "crates/exported_c/")) or name in CALLS or (contract.startswith(")") and empty):
            yield name, contract


def followed():
    """Each definition that the contracts are made of, and for each file the name that led there."""
    todo, seen, by = [], set(), {}

    def add(module, name, whose):
        path = file_of(module)
        if path:
            todo.append((path, name.split(".")[-1], whose))

    for path in sorted(glob.glob("crates/*/src/**/*.rt", recursive=True)):
        for call, contract in contracts(path):
            for token in set(TOKEN.findall(contract)):
                if token in module_at(path).imported:
                    add(*module_at(path).imported[token], f"{path}: {call}")
    while todo:
        path, name, whose = todo.pop()
        if (path, name) in seen:
            continue
        seen.add((path, name))
        here = module_at(path)
        if name not in here.text:
            if name in here.imported:
                add(*here.imported[name], whose)
            continue
        by.setdefault(path, whose)
        for token in set(TOKEN.findall(here.text[name])):
            if token in here.text:
                todo.append((path, token, f"{path}: {name}"))
            elif token in here.imported:
                add(*here.imported[token], f"{path}: {name}")
            elif token in here.qualified:
                for inner in re.findall(re.escape(token) + r"\.([^\s(){}\[\],;]+)", here.text[name]):
                    add(here.qualified[token], inner, f"{path}: {name}")
    return seen, by


def listed():
    """The files that the list names: by their paths, by their names beside the path before, or as a file that each crate may have."""
    folder, files = "", set()
    names = r"each crate's specs/(\w+\.antt)|(crates/[\w/]+/specs/[\w/]+\.antt)|(?<![\w/.])([A-Z]\w*\.antt)"
    for each, path, name in re.findall(names, open(READING, encoding="utf-8").read()):
        if each:
            files.update(glob.glob(f"crates/*/specs/{each}"))
        else:
            folder = os.path.dirname(path) or folder
            files.add(path or f"{folder}/{name}")
    return files


def main():
    seen, by = followed()
    files, wrong = listed(), 0
    for path in sorted(files):
        if not os.path.exists(path):
            wrong += 1
            print(f"{READING} names {path}, which is not there")
    for path in sorted(set(by) - files):
        wrong += 1
        print(f"{READING} does not name {path}, to which {by[path]} leads")
    print(f"{len(seen)} definitions in {len(by)} files, {len(files)} files listed, {wrong} wrong")
    return 1 if wrong else 0


if __name__ == "__main__":
    os.chdir(os.path.join(os.path.dirname(os.path.abspath(__file__)), ".."))
    sys.exit(main())
