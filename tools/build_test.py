#!/usr/bin/env python3
"""The test of bin/build's memory: the library is proved and built where something that it is built from has changed, and nowhere else.

    build_test.py bin/build

In a folder with the scripts of bin/, five small crates and stand-ins for rt and cargo, first in PATH, which write down how they are called. A build
from nothing, one with nothing changed, and one after each change: a byte of a source, a file more, less or renamed, the list of crates, the
toolchain's name, the archive changed or gone, what was written down of it gone; a new time alone, what rt keeps in out/ and a crate that the library does
not stand on change nothing. A proof that fails is told and tried again. Prints how many comparisons agreed; the exit status is 1 where one did not.
"""
import os
import re
import shutil

from tool import Tool, tested

TOP = os.path.dirname(os.path.dirname(os.path.abspath(__file__)))
ARCHIVE = "target/staticlib/libexported.a"
CRATES = {"bits": "bits:\n", "job": "job: bits\n", "exported": "exported: job\n", "exported_c": "exported_c staticlib: job exported\n",
          "other": "other: bits\n"}
RT = """#!/bin/sh
case $1 in
version) cat "$0.version"; exit ;;
lib) echo "${PWD##*/}: $*" >> "$0.calls" ;;
*) exit ;;
esac
echo "rt: chose --jobs 1 for job"
mkdir -p ../job/out out
date +%N > ../job/out/kept
[ ! -e "$0.broken" ] || { echo "./src/job.rt:1:2: error: no proof"; echo "logic=not-proved"; echo "rt: nothing above it was checked"; exit 1; }
echo "logic=proved functions=1"
echo "rt: chose --jobs 1 for exported_c"
cat ../*/src/* > out/libexported_c.a
echo "logic=proved functions=1"
"""
CARGO = "#!/bin/sh\n[ \"$1\" = --version ] && echo 'cargo 9999.0.0'\nexit 0\n"
PROVED = ["exported_c: lib"]
BROKEN = ["crate job is NOT PROVED, at crates/job/src/job.rt:1:2", "FAILED: crate job is NOT PROVED", "first error: crates/job/src/job.rt:1:2: error: no proof",
          "whole log: target/library.log"]


class Builder(Tool):
    """A copy of what the scripts need."""

    def lay_out(self):
        shutil.copytree(os.path.join(TOP, "bin"), self.path("bin"))
        os.makedirs(self.path("host"))
        shutil.copy(os.path.join(TOP, "host/Cargo.toml"), self.path("host/Cargo.toml"))
        self.file("crates.txt", "".join(CRATES.values()).encode())
        for name in CRATES:
            os.makedirs(self.path("crates/%s/src" % name))
            self.file("crates/%s/src/%s.rt" % (name, name), name.encode())
        os.makedirs(self.path("stand-ins"))
        for name, text in (("rt", RT), ("cargo", CARGO)):
            os.chmod(self.file("stand-ins/" + name, text.encode()), 0o755)
        self.file("stand-ins/rt.version", b"rattle 1\n")

    def built(self):
        """The exit status of a build, and the calls of rt that it made; what it says stays in self.said."""
        calls = self.file("stand-ins/rt.calls", b"")
        env = {**os.environ, "PATH": self.path("stand-ins") + os.pathsep + os.environ["PATH"]}
        program, self.program = self.program, self.path("bin/build")
        status, _, said = self.run(env=env)
        self.said = [re.sub(r", \d+ s so far$", "", line) for line in said.decode().splitlines()]
        self.program = program
        return status, open(calls).read().splitlines()

    def builds(self, what, proved):
        """A build that proves or does not, and one behind it that does not."""
        self.expect(what, self.built(), (0, PROVED if proved else []))
        self.expect(what + ", again", self.built(), (0, []))


def test(tool):
    tool.lay_out()
    tool.expect("from nothing", (*tool.built(), tool.said[1:-1]), (0, PROVED, ["proved 1 of 4: job", "proved 2 of 4: exported_c", "2 of 4 crates were proved before"]))
    tool.builds("nothing changed", False)
    source, listed = "crates/bits/src/bits.rt", tool.path("crates/job/must-fail")
    tool.file(source, b"bitz")
    tool.builds("a byte of a source", True)
    os.utime(tool.path(source), (1, 1))
    tool.builds("a new time alone", False)
    tool.file("crates/job/out/kept", b"more")
    tool.builds("what rt keeps", False)
    os.mkdir(listed)
    tool.builds("a folder alone", False)
    tool.file("crates/job/must-fail/some edit", b"")
    tool.builds("a file more, with a blank in its name", True)
    os.rename(os.path.join(listed, "some edit"), os.path.join(listed, "other"))
    tool.builds("a file renamed", True)
    os.remove(os.path.join(listed, "other"))
    tool.builds("a file less", True)
    tool.file("crates/other/src/other.rt", b"changed")
    tool.builds("a crate that the library does not stand on", False)
    tool.file("crates.txt", "".join(CRATES.values()).encode() + b"# a comment\n")
    tool.builds("the list of crates", True)
    tool.file("stand-ins/rt.version", b"rattle 2\n")
    tool.builds("the toolchain", True)
    tool.file(ARCHIVE, b"damaged")
    tool.builds("the archive changed", True)
    os.remove(tool.path(ARCHIVE))
    tool.builds("the archive gone", True)
    os.remove(tool.path("target/library.built"))
    tool.builds("what was written down gone", True)
    shutil.rmtree(tool.path("target"))
    tool.builds("all gone", True)
    tool.file("stand-ins/rt.broken", b"")
    tool.expect("nothing changed, and no proof would hold", tool.built(), (0, []))
    tool.file(source, b"bits")
    for turn in ("a proof that fails", "once more"):
        tool.expect(turn, (*tool.built(), tool.said[1:]), (1, PROVED, BROKEN))
    os.remove(tool.path("stand-ins/rt.broken"))
    tool.builds("a proof that holds now", True)


if __name__ == "__main__":
    tested(test, Builder)
