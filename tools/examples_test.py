#!/usr/bin/env python3
"""The test of the examples: builds map_of_file.c and eight_lanes.c as a stranger would, and runs them and map_of_file.py on factor files.

    examples_test.py PREFIX_OR_BUILD

With a prefix that bin/install has filled, C is compiled by what pkg-config says, without a warning as C99: with the shared library, with -static,
and with the archive that the file names; and the commands of examples/README.md are run as they stand. On a machine without pkg-config the programs
are linked with the archive alone, and the last line says so. With the repository's top folder, once the library is built, C is compiled with
include/ and the archive, and a shared library is made of that. The files are the samples and the printer test's: all five groups, both primes and
both versions, sound, cut at every length, changed at every byte, refused in header and records; then files that are not there or cannot be read.
What must be printed is computed by brute_force.py: triple sums, sums over whole cells, orbits enumerated. The lanes of many files, more than there are
lanes and two that have no room together, are those of lanes_test.py. Prints how many comparisons agreed; the exit status is 1 where one did not.
"""
import glob
import os
import random
import re
import shutil
import subprocess
import sys
import tempfile

from brute_force import PRIMES, file_faults, lengths_in, needed, open_file, product, signed
from lanes_test import Empty, Lanes
from many_test import Case
from printer_test import files

TOP = os.path.dirname(os.path.dirname(os.path.abspath(__file__)))
SCRIPT = os.path.join(TOP, "examples/map_of_file.py")
SEED = 2026
STRICT = ["-std=c99", "-Wall", "-Wextra", "-pedantic", "-Werror", "-O2"]
# Triple sums over more points take too long: a larger cell is tried where it is refused.
MOST_POINTS = 24 ** 3
# The script takes as long to start as many runs of the program: it has one of so many of the printer test's files.
SCRIPT_EACH = 4


class Compared:
    """The count of comparisons."""

    def __init__(self):
        self.agreed = self.wrong = 0

    def expect(self, what, got, want):
        if got == want:
            self.agreed += 1
        else:
            self.wrong += 1
            print("%s: got %.300r, expected %.300r" % (what, got, want))


def ended(command, **more):
    done = subprocess.run(command, stdout=subprocess.PIPE, stderr=subprocess.PIPE, check=False, **more)
    return done.returncode, done.stdout.decode(), done.stderr.decode()


def must(command, **more):
    """What a command prints that has to succeed, without a word on standard error."""
    status, out, err = ended(command, **more)
    if status or err:
        sys.exit("%s: status %d\n%s" % (" ".join(command), status, err))
    return out.split()


def built(example, ways, folder):
    """The program of an example, linked in each way."""
    made = {}
    for way, flags in ways.items():
        made[way] = os.path.join(folder, "%s %s" % (example, way))
        must(["gcc", *STRICT, "-o", made[way], os.path.join(TOP, "examples", example + ".c"), *flags])
    return made


def ways_of_prefix(prefix, _):
    """Three ways of linking by pkg-config, and where the shared library is."""
    libraries = os.path.join(prefix, "lib")
    found = {**os.environ, "PKG_CONFIG_PATH": os.path.join(libraries, "pkgconfig")}
    header = must(["pkg-config", "--cflags", "recorder"], env=found)
    shared = must(["pkg-config", "--libs", "recorder"], env=found)
    static = ["-static"] + must(["pkg-config", "--static", "--libs", "recorder"], env=found)
    archive = must(["pkg-config", "--variable=archive", "recorder"], env=found)
    return {"shared": header + shared, "static": header + static, "archive": header + archive}, libraries


def ways_of_archive(prefix, _):
    """With the archive of a prefix, where no pkg-config can be asked."""
    libraries = os.path.join(prefix, "lib")
    return {"archive": ["-I" + os.path.join(prefix, "include"), os.path.join(libraries, "librecorder.a")]}, libraries


def ways_of_build(top, folder):
    """With the archive of a build, and a shared library made of it."""
    archive = os.path.join(top, "target/staticlib/libexported.a")
    must(["gcc", "-shared", "-o", os.path.join(folder, "librecorder.so.2"), "-Wl,--whole-archive", archive, "-Wl,--no-whole-archive"])
    return {"archive": ["-I" + os.path.join(top, "include"), archive]}, folder


def powers(book):
    """The sum of F conj F over all indices before the synthesis, and of the squares of the densities after it, modulo the prime."""
    factors = sum(a * a + b * b for a, b in book.F.values()) % book.p
    book.synthesis(11520)
    return factors, sum(x * x for x in book.densities().values()) % book.p


def expected(name, file):
    """The exit status, standard output and standard error of an example on a file."""
    refused, _, book = open_file(file, needed(file))
    if refused:
        at_fault = ", ".join("record %d" % q for q in file_faults(file))
        return 1, "", "%s: refused %d%s\n" % (name, refused, at_fault and ", at fault: " + at_fault)
    factors, power = powers(book)
    n1, n2, n3 = n = book.n
    lines = ["group %d, modulus %d, %d x %d x %d points" % (book.g, book.modulus, *n)]
    for q in ((0, 0, 0), (n1 // 2, n2 // 2, n3 // 2), (n1 - 1, n2 - 1, n3 - 1)):
        lines.append("density at (%d, %d, %d): %d" % (*q, signed(book.densities()[q], book.p)))
    return 0, "\n".join(lines + ["power of the factors: %d" % factors, "power of the map: %d" % power, ""]), ""


def sound_and_large(file):
    """Whether a file is one whose map would have to be summed, of too many points."""
    return open_file(file, -1)[0] == 6 and product(lengths_in(file)) > MOST_POINTS


def readme_runs(prefix, folder, compared):
    """The commands of examples/README.md that need a prefix, block by block in a folder beside examples/ and samples/: each prints the text shown."""
    for name in ("examples", "samples"):
        os.symlink(os.path.join(TOP, name), os.path.join(folder, name))
    with open(os.path.join(TOP, "examples/README.md"), encoding="utf-8") as text:
        blocks = [re.sub("(?m)^    ", "", block) for block in re.findall("(?m)(?:^    .*\n)+", text.read())]
    for example, opening, count in (("map_of_file", "group ", 3), ("eight_lanes", "lane ", 1)):
        shown = [block for block in blocks if block.startswith(opening)]
        commands = [block for block in blocks if "PREFIX" in block and example in block]
        compared.expect("the blocks of examples/README.md for " + example, (len(shown), len(commands)), (1, count))
        for block in commands:
            done = ended(["sh", "-e", "-c", block], cwd=folder, env={**os.environ, "PREFIX": prefix})
            compared.expect("commands of examples/README.md", done, (0, shown[0], ""))


def runs(given, programs, libraries, folder, compared):
    """Every way of linking on every file, and the script."""
    found = {**os.environ, "LD_LIBRARY_PATH": libraries}

    def compare(what, name, want, with_script=True):
        for way, program in programs.items():
            compared.expect("%s, %s" % (what, way), ended([program, name], env=found), want)
        if with_script:
            compared.expect("%s, the script" % what, ended([sys.executable, SCRIPT, name], env=found), want)

    for name, file in given:
        compare(name, name, expected(name, file))
    path = os.path.join(folder, "file")
    for place, file in enumerate(files()):
        if not sound_and_large(file):
            with open(path, "wb") as out:
                out.write(file)
            compare("file %s" % file[:40].hex(), path, expected(path, file), place % SCRIPT_EACH == 0)
    compare("a file that is not there", "no/such", (2, "", "no/such: No such file or directory\n"))
    compare("a folder", folder, (2, "", "%s: Is a directory\n" % folder))
    for words in ([], ["a", "b"]):
        for program in [[program] for program in programs.values()] + [[sys.executable, SCRIPT]]:
            compared.expect("a wrong command line", ended(program + words, env=found), (2, "", "usage: map_of_file FILE\n"))


class Folder:
    """Files by their names, as those of a tool under test."""

    def __init__(self, folder):
        self.folder = folder

    def file(self, name, contents):
        path = os.path.join(self.folder, name)
        with open(path, "wb") as out:
            out.write(contents)
        return path


def in_lanes(found):
    """The lines of files that run in lanes."""
    said = ""
    for case, *counts in Lanes(found, "").finished:
        density, power = 0, 0
        if not isinstance(case, Empty):
            density, power = signed(case.M[0, 0, 0], PRIMES[case.known.modulus]), case.powers()[0]
        said += "lane %d: %s: %d turns of at most %d, density at (0, 0, 0): %d, power of the map: %d\n" % (
            counts[0], case.path, *counts[1:], density, power)
    return said


def lanes(given, programs, libraries, folder, compared):
    """Lists of files in the lanes; a refused file among them; two that have no room together; what is no file."""
    rng, found, there = random.Random(SEED), {**os.environ, "LD_LIBRARY_PATH": libraries}, Folder(folder)
    samples = [Case(name, file) for name, file in given]
    small = [file for file in files() if not sound_and_large(file)]
    cases = [Case(there.file("small %d" % place, file), file) for place, file in enumerate(small) if not open_file(file, needed(file))[0]]
    refused = there.file("refused", next(file for file in small if file_faults(file)))
    large = [Empty(there, "large %d" % place, 0, (240, 240, 240), [[4, 5, 3, 2]] * 3) for place in range(2)]
    for way, program in programs.items():
        for part in (samples, samples * 3, large, *[rng.choices(cases, k=count) for count in (1, 7, 8, 9, 20)]):
            compared.expect("lanes, %s" % way, ended([program, *[case.path for case in part]], env=found), (0, in_lanes(part), ""))
        want = expected(refused, open(refused, "rb").read())
        compared.expect("lanes and a refused file", ended([program, *[case.path for case in samples], refused], env=found), want)
        compared.expect("lanes of nothing", ended([program], env=found), (2, "", "usage: eight_lanes FILE..\n"))
        compared.expect("lanes of no file", ended([program, "no/such"], env=found), (2, "", "no/such: No such file or directory\n"))


def main():
    if len(sys.argv) != 2:
        sys.exit("usage: examples_test.py PREFIX_OR_BUILD")
    where, compared = os.path.abspath(sys.argv[1]), Compared()
    installed, asked = os.path.exists(os.path.join(where, "lib/pkgconfig/recorder.pc")), shutil.which("pkg-config")
    samples = []
    for name in sorted(glob.glob(os.path.join(TOP, "samples/*.factors"))):
        with open(name, "rb") as file:
            samples.append((name, file.read()))
    with tempfile.TemporaryDirectory() as folder:
        ways, libraries = (ways_of_build if not installed else ways_of_prefix if asked else ways_of_archive)(where, folder)
        runs(samples, built("map_of_file", ways, folder), libraries, folder, compared)
        lanes(samples, built("eight_lanes", ways, folder), libraries, folder, compared)
        if installed and asked:
            readme_runs(where, folder, compared)
    without = "" if asked or not installed else "; without pkg-config, which this machine does not have"
    print("%d comparisons agree, %d do not%s" % (compared.agreed, compared.wrong, without))
    sys.exit(1 if compared.wrong else 0)


if __name__ == "__main__":
    main()
