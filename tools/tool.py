"""The command line tool under test: a program, a folder for its files, and the count of comparisons."""
import os
import subprocess
import sys
import tempfile


class Tool:
    """The program, a folder for its files, and the count of comparisons."""

    def __init__(self, program, folder):
        self.program, self.folder = program, folder
        self.agreed = self.wrong = 0

    def path(self, name):
        return os.path.join(self.folder, name)

    def file(self, name, contents):
        with open(self.path(name), "wb") as out:
            out.write(contents)
        return self.path(name)

    def run(self, *words, given=b"", **more):
        more = {"stdout": subprocess.PIPE, "stderr": subprocess.PIPE, **({} if "stdin" in more else {"input": given}), **more}
        done = subprocess.run([self.program, *map(str, words)], check=False, **more)
        return done.returncode, done.stdout, done.stderr

    def run_endless(self, part, *words, first=b""):
        """Runs a command whose standard input has a part again and again, until the command closes it."""
        with subprocess.Popen([self.program, *map(str, words)], stdin=subprocess.PIPE, stdout=subprocess.PIPE, stderr=subprocess.PIPE) as run:
            try:
                run.stdin.write(first)
                while True:
                    run.stdin.write(part * (65536 // len(part)))
            except BrokenPipeError:
                pass
            try:
                run.stdin.close()
            except BrokenPipeError:
                pass
            return run.wait(), run.stdout.read(), run.stderr.read()

    def expect(self, what, got, want):
        if got == want:
            self.agreed += 1
        else:
            self.wrong += 1
            print("%s: got %.300r, expected %.300r" % (what, got, want))

    def fails(self, what, words, part, given=b"", **more):
        """A command that cannot do what it is asked: status 2 and some words on what to do."""
        status, out, err = self.run(*words, given=given, **more)
        self.expect(what, (status, out or b"", part in (err or b"")), (2, b"", True))


def tested(test, kind=Tool):
    """Runs a test with the tool that the command line names and a folder of its own; the exit status is 1 where a comparison did not agree."""
    if len(sys.argv) != 2:
        sys.exit("usage: %s PROGRAM" % os.path.basename(sys.argv[0]))
    with tempfile.TemporaryDirectory() as folder:
        tool = kind(os.path.abspath(sys.argv[1]), folder)
        test(tool)
    print("%d comparisons agree, %d do not" % (tool.agreed, tool.wrong))
    sys.exit(1 if tool.wrong else 0)
