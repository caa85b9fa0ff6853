#!/usr/bin/env python3
"""The test of the tutorial: does what docs/TUTORIAL.md says, in an empty folder, and compares what is printed with what is shown.

    tutorial_test.py PROGRAM

A block of the page that opens with ```text NAME is a file to be typed; one that opens with ```console has commands behind a $ and under each what it
prints, on standard output and standard error, to the letter but for blanks at the ends of lines; three dots as the last line stand for more. There
are no other blocks, there are eighteen commands, and each is one of the program's and ends with status 0. Then the files that the commands have made:
factor files and picture are the stored samples, byte for byte, so the picture on README's first screen is what the program writes; the combined map,
the file for viewers and the maps in the folder are those of brute_force.py. Prints how many comparisons agreed; the exit status is 1 where one did not.
"""
import os
import re
import subprocess

from brute_force import file_bytes, needed, open_file, pack_map, signed
from expected_files import combined_bytes, map_bytes
from mrc_cases import bits, mrc_file
from samples import combined
from tool import tested

TOP = os.path.dirname(os.path.dirname(os.path.abspath(__file__)))
COMMANDS = 18
# What stands in the folder in the end, and the sample that it is equal to.
MADE = {"p21.text": None, "p21.factors": "p21.factors", "p21.png": "p21.section.png", "p21.mrc": None, "p21.whole.text": None,
        "p21.second.factors": "p21.second.factors", "p21.combined": None, "large.text": None, "large.factors": None, "maps": None,
        "deposit.text": None, "deposit.map": None, "deposit.mrc": None, "returned.csv": None, "vault.log": None, "scores": None}
# The unit cells that the tutorial names: their edges, two angles that the first group has for itself, and gamma.
UNIT_CELL = (30, 40, 30, 90, 90, 90)
DEPOSITS_CELL = (30, 40, 50, 90, 90, 90)
# The large entry, with the lists that pack chooses.
LARGE = file_bytes(0, (60, 60, 60), [[5, 3, 2]] * 3, [(1, 2, 3, 4, 5)])


def contents(*names):
    with open(os.path.join(*names), "rb") as file:
        return file.read()


def blocks(page):
    """The blocks of a page: what stands behind their opening, and their lines."""
    found, opening = [], None
    for line in page.split("\n"):
        if line.startswith("```"):
            if opening is None:
                opening = line[3:]
                found.append((opening, []))
            else:
                opening = None
        elif opening is not None:
            found[-1][1].append(line)
    assert opening is None, "a block is not closed"
    return found


def commands(lines):
    """The commands of a block, each with the lines that it prints."""
    found = []
    for line in lines:
        if line.startswith("$ "):
            found.append((line[2:], []))
        else:
            assert found, "a block of commands does not begin with one"
            found[-1][1].append(line)
    return found


def as_shown(printed, shown):
    """What was printed, as lines without the blanks at their ends, cut after the lines that are shown before three dots."""
    lines = [line.rstrip(" ") for line in printed.split("\n")]
    assert lines.pop() == "", "the last line is not closed"
    return lines[:len(shown) - 1] + ["..."] if shown[-1:] == ["..."] and len(lines) >= len(shown) else lines


def run_page(tool, page):
    """Types and runs all that the page has. The program's name is found as a reader's is, by PATH."""
    os.symlink(tool.program, tool.path("recorder"))
    folder = tool.path("empty")
    os.mkdir(folder)
    found, count = {**os.environ, "PATH": tool.folder + os.pathsep + os.environ["PATH"]}, 0
    for opening, lines in blocks(page):
        kind, _, name = opening.partition(" ")
        if kind == "text" and re.fullmatch(r"[a-z0-9.]+", name):
            tool.file(os.path.join("empty", name), "".join(line + "\n" for line in lines).encode())
        elif opening == "console":
            for command, shown in commands(lines):
                count += 1
                done = subprocess.run(["sh", "-c", command], cwd=folder, env=found, stdin=subprocess.DEVNULL, stdout=subprocess.PIPE,
                                      stderr=subprocess.STDOUT, check=False)
                tool.expect(command, (done.returncode, as_shown(done.stdout.decode(), shown)), (0, shown))
                tool.expect("the program of: " + command, command.split(" ")[0], "recorder")
        else:
            tool.expect("a block of the page", opening, "text NAME, or console")
    tool.expect("how many commands the page has", count, COMMANDS)
    tool.expect("commands and blocks that are indented", re.findall("(?m)^(?:    |\t).*$", re.sub("(?ms)^```.*?^```$", "", page)), [])
    return folder


def counts(text, table):
    """The counts of the day in the vault: those of a text that map prints, and those of a table."""
    rows = [[int(c) for c in line.split()] for line in text.split("\n")[1:] if line]
    cells = [[int(c) for c in line.split(";")] for line in table.split("\n")[1:] if line]
    return {(row[1], y, row[0]): c for row in rows for y, c in enumerate(row[2:])}, {(x, y, z): c for x, y, z, c in cells}


def score(first, second):
    """The sum of products at every shift of a cell of 4 x 2 x 2 points."""
    n = (4, 2, 2)
    return {s: sum(c * second[tuple((u + t) % m for u, t, m in zip(at, s, n))] for at, c in first.items()) for s in first}


def compare_files(tool, folder):
    """The files that the commands have made."""
    tool.expect("the files in the folder", sorted(os.listdir(folder)), sorted(MADE))
    made = {name: contents(folder, name) for name in MADE if os.path.isfile(os.path.join(folder, name))}
    for name, sample in MADE.items():
        if sample:
            tool.expect("%s and samples/%s" % (name, sample), made.get(name), contents(TOP, "samples", sample))
    first, second = (open_file(file, needed(file))[2] for file in (contents(TOP, "samples", name) for name in ("p21.factors", "p21.second.factors")))
    M, N = first.densities(), second.densities()
    tool.expect("p21.combined", made.get("p21.combined"), combined_bytes(first.g, first.n, {q: combined(M[q], N[q]) for q in M}))
    tool.expect("large.factors", made.get("large.factors"), LARGE)
    books = {"p21.map": first, "p21.second.map": second, "large.map": open_file(LARGE, needed(LARGE))[2]}
    maps = {name: map_bytes(book.g, book.n, book.lists, book.densities(), book.modulus) for name, book in books.items()}
    tool.expect("the maps", {name: contents(folder, "maps", name) for name in os.listdir(os.path.join(folder, "maps"))}, maps)
    deposit, returned = counts(contents(folder, "deposit.text").decode(), contents(folder, "returned.csv").decode())
    tool.expect("deposit.map", made.get("deposit.map"), map_bytes(0, (4, 2, 2), [[2], [], []], deposit))
    file = mrc_file(0, (4, 2, 2), pack_map(0, (4, 2, 2), deposit), 0, [bits(x) for x in DEPOSITS_CELL])
    tool.expect("deposit.mrc", made.get("deposit.mrc"), file)
    tool.expect("scores", made.get("scores"), b"%d\n" % max(score(deposit, returned).values()))
    tool.expect("the lines of the log", made.get("vault.log", b"").count(b"\n"), 1)
    volume = pack_map(first.g, first.n, {q: signed(x) for q, x in M.items()})
    tool.expect("p21.mrc", made.get("p21.mrc"), mrc_file(first.g, first.n, volume, 1, [bits(x) for x in UNIT_CELL]))


def test(tool):
    page = contents(TOP, "docs/TUTORIAL.md").decode()
    compare_files(tool, run_page(tool, page))
    readme = contents(TOP, "README.md").decode()
    tool.expect("how often README shows the picture", readme.count("](samples/p21.section.png)"), 1)


if __name__ == "__main__":
    tested(test)
