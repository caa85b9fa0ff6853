#!/usr/bin/env bash
# Times `recorder match` on two files of MRC with counts of P1 at 120^3, one returned with a shift that was put in, beside the parts that it is made of:
# import of each and match of the two map files. Processor time, the least of five alternating runs; the bar is 1.3. Then the same of two combined map
# files beside overlay and best. The files are those of tools/match_test.py.
set -eu
cd "$(dirname "$0")/.."
bin/build
out=$(mktemp -d)
trap 'rm -rf "$out"' EXIT
PYTHONPATH=tools python3 - host/target/release/recorder "$out" <<'TIMED'
import os
import subprocess
import sys
from match_test import LARGE_SHIFT, large_counts, large_viewer_file

RUNS, BAR = 5, 1.3
program, folder = sys.argv[1:]
path = lambda name: os.path.join(folder, name)
for name, counts, mode in zip(("deposit.mrc", "returned.mrc"), large_counts(), (0, 2)):
    with open(path(name), "wb") as file:
        file.write(large_viewer_file(counts, mode))


def spent(*words):
    """The seconds of processor time that a run takes, and what it prints."""
    with subprocess.Popen([program, *words], stdout=subprocess.PIPE) as run:
        out = run.stdout.read()
        _, status, used = os.wait4(run.pid, 0)
        run.returncode = os.waitstatus_to_exitcode(status)
    if run.returncode:
        sys.exit("%s ended with %d" % (words[0], run.returncode))
    return used.ru_utime + used.ru_stime, out.decode()


def compared(what, whole, parts):
    """A command beside others that do the same together."""
    runs = [(spent(*whole), [spent(*words) for words in parts]) for _ in range(RUNS)]
    alone, each = min(run[0][0] for run in runs), [min(run[1][part][0] for run in runs) for part in range(len(parts))]
    if "shift %d %d %d" % LARGE_SHIFT not in runs[0][0][1]:
        sys.exit("%s did not find the shift" % what)
    said = " + ".join("%.3f" % seconds for seconds in each)
    print("%s: %.3f s, its parts %s = %.3f s, ratio %.2f" % (what, alone, said, sum(each), alone / sum(each)))
    return alone <= BAR * sum(each)


files, maps, combined = ([path("%s.%s" % (name, kind)) for name in ("deposit", "returned")] for kind in ("mrc", "map", "combined"))
imported = [("import", file, "--group", "P1", "-o", made) for file, made in zip(files, maps)]
within = compared("match of files of MRC", ("match", *files), [*imported, ("match", *maps)])
for file, made in zip(files, combined):
    spent("import", file, "--group", "P1", "--combined", "-o", made)
within &= compared("match of combined maps", ("match", *combined), [("overlay", *combined, "-o", path("overlay")), ("best", path("overlay"))])
sys.exit(0 if within else "above %.1f" % BAR)
TIMED
