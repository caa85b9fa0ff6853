#!/usr/bin/env python3
"""The test of bin/install: what it puts under a prefix, what it says, and that it takes exactly that away again.

    install_test.py bin/install

Library and tool have to be built before, by bin/build: stand-ins for rt and cargo, first in PATH, do nothing, so nothing is proved or built anew. Into an empty
prefix, once more into the same, with DESTDIR, under a relative name with a blank in it; prefixes that cannot be written or named, a machine that
lacks something, a build that fails and a copy that fails midway: each is told in words and leaves what was there. The shared library has the calls of
the C header as its names, no others, and pkg-config gives the flags. The Python package of the prefix finds the library beside it. Prints how many
comparisons agreed; the exit status is 1 where one did not.
"""
import ctypes
import os
import re
import shutil
import stat
import subprocess
import sys

from tool import tested

TOP = os.path.dirname(os.path.dirname(os.path.abspath(__file__)))
PROGRAM = os.path.join(TOP, "host/target/release/recorder")
# The places under a prefix, each with its permissions and with what it must hold: a file of the repository, or what the tool prints.
PLACES = {
    "bin/recorder": (0o755, "host/target/release/recorder"),
    "include/recorder.h": (0o644, "include/recorder.h"),
    "lib/librecorder.a": (0o644, "target/staticlib/libexported.a"),
    "lib/librecorder.so.2": (0o755, None),
    "lib/librecorder.so": (0o755, None),
    "lib/pkgconfig/recorder.pc": (0o644, None),
    "share/man/man1/recorder.1": (0o644, ["help", "--man"]),
    "share/bash-completion/completions/recorder": (0o644, ["help", "--completion", "bash"]),
    "share/zsh/site-functions/_recorder": (0o644, ["help", "--completion", "zsh"]),
    "share/fish/vendor_completions.d/recorder.fish": (0o644, ["help", "--completion", "fish"]),
}
PACKAGE = "lib/python3/dist-packages/recorder"
MODULES = ["__init__.py", "arrays.py", "calling.py", "calls.py", "cells.py", "declarations.py", "entries.py", "lanes.py", "library.py", "lines.py",
           "maps.py", "refusals.py", "py.typed"]
PLACES.update({"%s/%s" % (PACKAGE, name): (0o644, "python/recorder/" + name) for name in MODULES})
# What a program of the package prints: where the library was found, and a density of the sample.
PROGRAM_IN_PYTHON = """
import recorder, recorder.library, sys
print(recorder.library.found(), recorder.read(sys.argv[1]).synthesis().point(0, 0, 0))
"""
STAND_IN = "#!/bin/sh\necho 'cargo 9999.0.0'\n"
# rt tells its name and does nothing else, so that a library that is not built as its sources are is told, and none is taken for built.
RT = "#!/bin/sh\ncase $1 in --version) ;; version) exec '%s' version ;; *) exit 1 ;; esac\n" % shutil.which("rt")
BROKEN = "#!/bin/sh\nexit 1\n"
# What copies half of a file, says nothing and fails.
HALF = "#!/bin/sh\nfor to; do :; done\necho half > \"$to\"\nexit 1\n"


def stand_ins(tool, name, scripts):
    """The environment in which these scripts stand before the programs of the same name."""
    folder = tool.path(name)
    os.mkdir(folder)
    for program, text in scripts.items():
        tool.file(os.path.join(name, program), text.encode())
        os.chmod(os.path.join(folder, program), 0o755)
    kept = {key: value for key, value in os.environ.items() if key != "DESTDIR"}
    return {**kept, "PATH": folder + os.pathsep + os.environ["PATH"]}


def contents(path):
    with open(path, "rb") as file:
        return file.read()


def tree(folder):
    """The files and links in a folder, with their permissions and contents."""
    found = {}
    for at, _, names in os.walk(folder):
        for name in names:
            path = os.path.join(at, name)
            found[os.path.relpath(path, folder)] = (stat.S_IMODE(os.stat(path).st_mode), contents(path))
    return found


def must_hold(place):
    """What a place must hold, or None where that is compared apart."""
    of = PLACES[place][1]
    if isinstance(of, list):
        return subprocess.run([PROGRAM, *of], stdout=subprocess.PIPE, check=True).stdout
    return of and contents(os.path.join(TOP, of))


def compare_tree(tool, what, root, prefix):
    """All that an installation under a prefix has, whose files are found in a folder."""
    found = tree(root)
    tool.expect(what + ", its files", {place: mode for place, (mode, _) in found.items()}, {place: mode for place, (mode, _) in PLACES.items()})
    for place in PLACES:
        held = must_hold(place)
        if held is not None:
            # py.typed is empty, and nothing else is
            whole = held != b"" or place.endswith("py.typed")
            tool.expect("%s, %s" % (what, place), whole and found.get(place, (0, b""))[1] == held, True)
    tool.expect(what + ", the link", os.readlink(os.path.join(root, "lib/librecorder.so")), "librecorder.so.2")
    lines = found.get("lib/pkgconfig/recorder.pc", (0, b""))[1].decode().split("\n")
    calls = int(re.search(r"(?m)^#define RECORDER_VERSION (\d+)$", contents(os.path.join(TOP, "include/recorder.h")).decode()).group(1))
    version = "%d.%d.%d" % (calls // 10000, calls // 100 % 100, calls % 100)
    tool.expect(what + ", recorder.pc", (lines[0], "Version: " + version in lines), ("prefix=" + prefix, True))


def compare_shared(tool, prefix):
    """The names of the shared library are the calls of the header, and it can be loaded."""
    header = re.sub(r"(?s)/\*.*?\*/|static inline.*?\n}", "", contents(os.path.join(TOP, "include/recorder.h")).decode())
    calls = sorted(re.findall(r"\b(recorder_\w+)\(", header))
    path = os.path.join(prefix, "lib/librecorder.so")
    listed = subprocess.run(["nm", "-D", "--defined-only", path], stdout=subprocess.PIPE, check=True).stdout.decode()
    tool.expect("the names of the shared library", sorted(line.split()[-1] for line in listed.splitlines()), calls)
    dynamic = subprocess.run(["readelf", "-d", path], stdout=subprocess.PIPE, check=True).stdout.decode()
    tool.expect("its soname", re.findall(r"\(SONAME\).*\[(.*)\]", dynamic), ["librecorder.so.2"])
    tool.expect("code that stands at one address", "TEXTREL" in dynamic, False)
    tool.expect("it is loaded", [name for name in calls if not hasattr(ctypes.CDLL(path), name)], [])


def compare_package(tool, prefix):
    """The Python package finds the library of its prefix, whatever the loader finds."""
    env = {key: value for key, value in os.environ.items() if key not in ("RECORDER_LIBRARY", "LD_LIBRARY_PATH")}
    env = {**env, "PYTHONPATH": os.path.dirname(os.path.join(prefix, PACKAGE)), "PYTHONDONTWRITEBYTECODE": "1"}
    sample = os.path.join(TOP, "samples/p21.factors")
    done = subprocess.run([sys.executable, "-c", PROGRAM_IN_PYTHON, sample], env=env, stdout=subprocess.PIPE, stderr=subprocess.STDOUT, check=False)
    tool.expect("the Python package", done.stdout.decode(), "%s/lib/librecorder.so.2 2180\n" % prefix)


def compile_package(tool, prefix):
    """What Python leaves beside a module when it is imported, under two versions' names, and a file that is not of the package."""
    os.mkdir(os.path.join(prefix, PACKAGE, "__pycache__"))
    for name in MODULES[:-1]:
        for version in ("cpython-39", "cpython-311.opt-1"):
            tool.file(os.path.join(prefix, PACKAGE, "__pycache__", name.replace(".py", "." + version + ".pyc")), b"compiled")


def compare_flags(tool, prefix):
    """What pkg-config says, where the machine has it; a blank in a name is behind a backslash."""
    if shutil.which("pkg-config"):
        asked = {**os.environ, "PKG_CONFIG_PATH": os.path.join(prefix, "lib/pkgconfig")}
        said = subprocess.run(["pkg-config", "--cflags", "--libs", "recorder"], env=asked, stdout=subprocess.PIPE, check=True).stdout.decode()
        named = prefix.replace(" ", "\\ ")
        tool.expect("pkg-config", said.split(" -"), ["-I%s/include" % named, "L%s/lib" % named, "lrecorder \n"])


def installs(tool, env):
    """Into an empty prefix, once more, with DESTDIR, and under a relative name with a blank."""
    prefix = tool.path("prefix")
    status, out, _ = tool.run(prefix, env=env)
    said = [line for line in out.decode().splitlines() if line.startswith("installed ")]
    tool.expect("install", (status, said), (0, ["installed %s/%s" % (prefix, place) for place in PLACES]))
    compare_tree(tool, "install", prefix, prefix)
    compare_shared(tool, prefix)
    compare_package(tool, prefix)
    compare_flags(tool, prefix)
    before = tree(prefix)
    tool.expect("install again", (tool.run(prefix, env=env)[0], tree(prefix) == before), (0, True))
    stage = tool.path("stage")
    tool.expect("DESTDIR", tool.run("/opt/the recorder/", env={**env, "DESTDIR": stage})[0], 0)
    compare_tree(tool, "DESTDIR", stage + "/opt/the recorder", "/opt/the recorder")
    tool.expect("a relative prefix", tool.run("a blank/in it", env=env, cwd=tool.folder)[0], 0)
    compare_tree(tool, "a relative prefix", tool.path("a blank/in it"), tool.path("a blank/in it"))
    compare_package(tool, tool.path("a blank/in it"))
    compare_flags(tool, tool.path("a blank/in it"))


def fails(tool, what, env, words, part, status=1):
    """A command that ends with words on what is wrong, and installs nothing."""
    ended, out, err = tool.run(*words, env=env)
    tool.expect(what, (ended, part in out + err, re.findall(b"(?m)^installed .*$", out)), (status, True, []))


def failures(tool, env):
    """Wrong command lines, prefixes that cannot be, and machines that cannot build: the installation of before stays as it is."""
    prefix = tool.path("prefix")
    before, fresh = tree(prefix), tool.path("fresh")
    for words in ([], [""], ["a", "b"], ["--uninstall"], ["--other", "a"], ["-x"]):
        fails(tool, "wrong words %s" % words, env, words, b"usage: bin/install PREFIX", status=2)
    fails(tool, "a file as prefix", env, [tool.file("in the way", b"")], b"is no folder")
    os.makedirs(tool.path("clash/bin/recorder"))
    fails(tool, "a folder in the way", env, [tool.path("clash")], b"is a folder, and a file is to have this name")
    fails(tool, "a prefix that cannot be written", env, ["/proc/none"], b"FAILED: ")
    for letter in "$#\"'\\\n":
        fails(tool, "a prefix with %r" % letter, env, [fresh + letter], b"recorder.pc cannot name")
    fails(tool, "no rt", stand_ins(tool, "no rt", {"rt": BROKEN, "cargo": STAND_IN}), [fresh], b"does not run: rt, the Rattle toolchain")
    fails(tool, "an old cargo", stand_ins(tool, "old cargo", {"rt": RT, "cargo": STAND_IN.replace("9999", "1")}), [fresh], b"too old: cargo")
    builds_not = "#!/bin/sh\n[ \"$1\" = --version ] && echo 'cargo 9999.0.0'\n"
    fails(tool, "a build that fails", stand_ins(tool, "no build", {"rt": RT, "cargo": builds_not}), [prefix], b"cargo did not build the tool")
    half = stand_ins(tool, "half", {"rt": RT, "cargo": STAND_IN, "install": "#!/bin/sh\n[ \"$1\" != --version ] || exit 0\n" + HALF[10:]})
    fails(tool, "a copy that fails midway", half, [prefix], b"could not be written")
    tool.expect("the installation of before", tree(prefix) == before, True)
    tool.expect("a prefix where nothing was installed", os.path.exists(fresh), False)


def uninstalls(tool, env):
    """Exactly what was installed goes: what stands beside stays, as do folders."""
    prefix = tool.path("prefix")
    tool.file("prefix/lib/librecorder.so.1", b"of another version")
    compile_package(tool, prefix)
    for what, words in (("uninstall", "removed "), ("uninstall again", "not there: ")):
        status, out, _ = tool.run("--uninstall", prefix, env=env)
        tool.expect(what, (status, out.decode().splitlines()), (0, [words + "%s/%s" % (prefix, place) for place in PLACES]))
        tool.expect(what + ", what is left", list(tree(prefix)), ["lib/librecorder.so.1"])
        tool.expect(what + ", the folders of the package", os.path.exists(os.path.join(prefix, PACKAGE)), False)
    tool.expect("uninstall with DESTDIR", tool.run("--uninstall", "/opt/the recorder", env={**env, "DESTDIR": tool.path("stage")})[0], 0)
    tool.expect("uninstall with DESTDIR, what is left", tree(tool.path("stage")), {})


def test(tool):
    env = stand_ins(tool, "stand-ins", {"rt": RT, "cargo": STAND_IN})
    installs(tool, env)
    failures(tool, env)
    uninstalls(tool, env)


if __name__ == "__main__":
    tested(test)
