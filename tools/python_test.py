#!/usr/bin/env python3
"""The test of the Python package: python_cases.py without numpy and with it, where the library is found, the README's and the first program.

    python_test.py PREFIX_OR_BUILD

With a prefix that bin/install has filled, the package is the installed one, and finds the library beside it. With the repository's top folder, once the
library is built, it is python/, with a shared library made of the archive. numpy is taken of this interpreter or of /usr/bin/python3, whichever has it, and
mypy, which looks at the types, where it is installed: the last line says in words what was skipped. Prints how many comparisons agreed; the exit status
is 1 where one did not.
"""
import os
import re
import shutil
import subprocess
import sys
import tempfile

TOP = os.path.dirname(os.path.dirname(os.path.abspath(__file__)))
CASES = os.path.join(TOP, "tools/python_cases.py")
FIRST_PROGRAM = os.path.join(TOP, "examples/section_of_file.py")
NAME = "librecorder.so.2"
INSTALLED = "lib/python3/dist-packages"
# Says which file the library was loaded from; a package that is imported loads none.
FINDS = "import recorder, recorder.library as l; print(l.found()); print(recorder.calls.scheduler_next(recorder.calls.scheduler_new()))"
# Stands for matplotlib: says what is shown and saved.
SHOWS = "def imshow(rows, **_):\n    print([[int(x) for x in row] for row in rows])\ndef savefig(name):\n    print(name)\n"


class Compared:
    """The count of comparisons."""

    def __init__(self):
        self.agreed = self.wrong = 0

    def expect(self, what, got, want):
        if got == want:
            self.agreed += 1
        else:
            self.wrong += 1
            print("%s: got %.2000r, expected %.300r" % (what, got, want))


def ended(command, env, **more):
    done = subprocess.run(command, env=env, stdout=subprocess.PIPE, stderr=subprocess.STDOUT, check=False, **more)
    return done.returncode, done.stdout.decode()


def environment(**given):
    """The environment without what would find another package or library."""
    kept = {key: value for key, value in os.environ.items() if key not in ("RECORDER_LIBRARY", "LD_LIBRARY_PATH", "PYTHONPATH")}
    return {**kept, "PYTHONDONTWRITEBYTECODE": "1", **given}


def made_library(archive, folder):
    path = os.path.join(folder, NAME)
    subprocess.run(["gcc", "-shared", "-o", path, "-Wl,--whole-archive", archive, "-Wl,--no-whole-archive"], check=True)
    return path


def with_numpy():
    """An interpreter that has numpy, or none."""
    for python in (sys.executable, "/usr/bin/python3"):
        if os.path.exists(python) and ended([python, "-c", "import numpy"], environment())[0] == 0:
            return python
    return None


def cases(compared, env):
    """The cases in each way; gives the words on numpy."""
    ways, words = {"without": sys.executable, "with": with_numpy()}, []
    for way, python in ways.items():
        if python is None:
            words.append("with numpy: skipped, no Python here has it")
            continue
        status, out = ended([python, "-X", "dev", CASES, way], env)
        last = re.search(r"(?:^|\n)(\d+) (\d+) (\S+)\n$", out)
        compared.expect("the cases %s numpy" % way, (status, last is not None and last[2], out.count("\n")), (0, "0", 1))
        if last is None or status or last[2] != "0":
            print(out[-3000:])
        compared.agreed += int(last[1]) if last else 0
        words.append("%s numpy" % way if way == "without" else "with numpy %s" % (last[3] if last else "?"))
    return words


def finding(compared, package, library, folder):
    """Where the library is found: RECORDER_LIBRARY, beside the package, the build's folder, the loader; and what is said where it is not."""
    def copied(name, path):
        shutil.copytree(package, os.path.join(folder, name, path, "recorder"), ignore=shutil.ignore_patterns("__pycache__"))
        return os.path.join(folder, name, path)

    def put(*names):
        path = os.path.join(folder, *names)
        os.makedirs(os.path.dirname(path), exist_ok=True)
        shutil.copy(library, path)
        return path

    def finds(path, **given):
        return ended([sys.executable, "-c", FINDS], environment(PYTHONPATH=path, **given))

    beside, built, alone = copied("prefix", INSTALLED), copied("build", "python"), copied("alone", "x/y/z")
    one, two, three = put("prefix", "lib", NAME), put("build/target/install", NAME), put("other", NAME)
    compared.expect("beside the package", finds(beside), (0, one + "\n0\n"))
    compared.expect("in the build's folder", finds(built), (0, two + "\n0\n"))
    for path in (beside, built, alone):
        compared.expect("the library that is named", finds(path, RECORDER_LIBRARY=three), (0, three + "\n0\n"))
    compared.expect("by the loader", finds(alone, LD_LIBRARY_PATH=os.path.dirname(three)), (0, NAME + "\n0\n"))
    for what, given, words in (("nowhere", {}, "run bin/install PREFIX, or let RECORDER_LIBRARY name"),
                               ("named and not there", {"RECORDER_LIBRARY": "/no/such"}, "named by RECORDER_LIBRARY"),
                               ("of another version", {"RECORDER_LIBRARY": "libc.so.6"}, "has no call recorder_version: it is of another version")):
        status, out = finds(alone, **given)
        compared.expect("a library %s" % what, (status, out.splitlines()[-1][:9], words in out), (1, "OSError: ", True))
    compared.expect("imported without a library", ended([sys.executable, "-c", "import recorder"], environment(PYTHONPATH=alone)), (0, ""))


def programs(compared, env, folder):
    """The program of python/README.md prints what its comments say; the first program shows plane 0, with matplotlib and without."""
    with open(os.path.join(TOP, "python/README.md"), encoding="utf-8") as text:
        blocks = [re.sub("(?m)^    ", "", block) for block in re.findall("(?m)(?:^    .*\n)+", text.read()) if "import recorder" in block]
    with open(os.path.join(TOP, "samples/p21.map.txt"), encoding="utf-8") as text:
        rows = [[int(x) for x in line.split()[2:]] for line in text.read().splitlines()[1:7]]
    lines = ["".join(["%4d" % x] + ["%13d" % v for v in row[q:q + 5]]).ljust(69) for x, row in enumerate(rows) for q in (0, 5)]
    total = sum(map(sum, rows))
    page = "".join(line + "\n" for line in lines + ["T%68d" % total, "M%68d" % (total // 48), "R%68d" % (total % 48)])
    for block in blocks:
        compared.expect("the program of python/README.md", ended([sys.executable, "-c", block], env, cwd=TOP), (0, "2180\n%s\nTrue\n" % page))
    compared.expect("how many programs python/README.md has", len(blocks), 1)
    for name, folder_of in (("README.md", TOP), ("docs/TUTORIAL.md", os.path.join(TOP, "samples"))):
        with open(os.path.join(TOP, name), encoding="utf-8") as text:
            shown = re.findall(r"`(recorder\.read\(.*?)`", text.read())
        got = [ended([sys.executable, "-c", "import recorder\nprint(%s, end='')" % expression], env, cwd=folder_of) for expression in shown]
        compared.expect("what %s shows of Python" % name, got, [(0, page)])
    with open(FIRST_PROGRAM, encoding="utf-8") as text:
        compared.expect("the lines of the first program", len(text.read().splitlines()) <= 10, True)
    for what, module, want in (("without", "raise ImportError\n", page), ("with", SHOWS, "%r\nsection.png\n" % rows)):
        stub = os.path.join(folder, what)
        os.makedirs(os.path.join(stub, "matplotlib"))
        with open(os.path.join(stub, "matplotlib/__init__.py"), "w", encoding="utf-8"), \
                open(os.path.join(stub, "matplotlib/pyplot.py"), "w", encoding="utf-8") as out:
            out.write(module)
        found = {**env, "PYTHONPATH": stub + os.pathsep + env["PYTHONPATH"]}
        got = ended([sys.executable, FIRST_PROGRAM, os.path.join(TOP, "samples/p21.factors")], found, cwd=folder)
        compared.expect("the first program %s matplotlib" % what, got, (0, want))


def types(compared, package):
    """The types by mypy, where it is there; gives the words on it."""
    checker = shutil.which("mypy")
    if checker is None:
        return "types: skipped, mypy is not installed"
    command = [checker, "--strict", "--ignore-missing-imports", "--no-incremental", "--cache-dir", os.devnull, package]
    status, out = ended(command, environment())
    compared.expect("the types", (status, out.splitlines()[-1:] and out.splitlines()[-1].startswith("Success")), (0, True))
    return "types by mypy"


def main():
    if len(sys.argv) != 2:
        sys.exit("usage: python_test.py PREFIX_OR_BUILD")
    where, compared = os.path.abspath(sys.argv[1]), Compared()
    with tempfile.TemporaryDirectory() as folder:
        if os.path.exists(os.path.join(where, INSTALLED, "recorder")):
            path, library, given = os.path.join(where, INSTALLED), os.path.join(where, "lib", NAME), {}
        else:
            path, library = os.path.join(where, "python"), made_library(os.path.join(where, "target/staticlib/libexported.a"), folder)
            given = {"RECORDER_LIBRARY": library}
        env = environment(PYTHONPATH=path, **given)
        words = cases(compared, env)
        finding(compared, os.path.join(path, "recorder"), library, folder)
        programs(compared, env, folder)
        words.append(types(compared, os.path.join(path, "recorder")))
    print("%d comparisons agree, %d do not; %s" % (compared.agreed, compared.wrong, ", ".join(words)))
    sys.exit(1 if compared.wrong else 0)


if __name__ == "__main__":
    main()
