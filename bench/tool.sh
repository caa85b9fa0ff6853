#!/usr/bin/env bash
# Times `recorder map` on a P1 file of 240^3 with 7,000 records, binary output: the share of its processor time outside the synthesis. `check`
# does no more than its reading, `point` no more than reading and synthesis; each time is the least of five alternating runs. The file is the
# one of tools/host_test.py.
set -eu
cd "$(dirname "$0")/.."
bin/build
out=$(mktemp -d)
trap 'rm -rf "$out"' EXIT
PYTHONPATH=tools python3 - host/target/release/recorder "$out" <<'TIMED'
import os
import random
import subprocess
import sys
from host_test import LARGE, SEED, large_file

program, folder = sys.argv[1:]
path = os.path.join(folder, "file")
g, length, factors = LARGE[0]
with open(path, "wb") as file:
    file.write(large_file(random.Random(SEED), g, (length,) * 3, [factors] * 3)[1])


def processor_time(*words):
    """The seconds of processor time, the user's and the system's, that a run takes."""
    run = subprocess.Popen([program, *words], stdout=subprocess.DEVNULL)
    _, status, used = os.wait4(run.pid, 0)
    run.returncode = os.waitstatus_to_exitcode(status)
    if run.returncode:
        sys.exit("%s ended with %d" % (words[0], run.returncode))
    return used.ru_utime + used.ru_stime


runs = [[processor_time("check", path), processor_time("point", path, "0", "0", "0"), processor_time("map", path, "-o", os.path.join(folder, "map"))]
        for _ in range(5)]
reading, synthesised, whole = map(min, zip(*runs))
print("reading %.3f s, synthesis %.3f s, writing %.3f s: %.3f of the processor time outside the synthesis" % (
    reading, synthesised - reading, whole - synthesised, 1 - (synthesised - reading) / whole))
TIMED
