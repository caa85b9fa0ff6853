#!/usr/bin/env bash
# Times the commands that take several files on 60 factor files of P2_1 at 48^3 with 7,000 records each: the seconds and the processor time of one
# command over all of them, and of a command for each file, the least of five alternating runs; and `log` on a map file of 240^3. The bar of `check`
# is 2 seconds. The files are made in a temporary folder, records drawn as those of tools/host_test.py are.
set -eu
cd "$(dirname "$0")/.."
bin/build
out=$(mktemp -d)
trap 'rm -rf "$out"' EXIT
PYTHONPATH=tools python3 - host/target/release/recorder "$out" <<'TIMED'
import os
import random
import subprocess
import sys
import time
from host_test import LARGE, RECORDS, SEED, large_file

FILES, RUNS, BAR = 60, 5, 2.0
program, folder = sys.argv[1:]
rng = random.Random(SEED)
paths = [os.path.join(folder, "%02d.factors" % file) for file in range(FILES)]
for path in paths:
    with open(path, "wb") as file:
        file.write(large_file(rng, 1, (48,) * 3, [[4, 3, 2]] * 3)[1])
g, length, factors = LARGE[0]
large = os.path.join(folder, "large.map")
with open(large + ".factors", "wb") as file:
    file.write(large_file(rng, g, (length,) * 3, [factors] * 3)[1])
subprocess.run([program, "map", large + ".factors", "-o", large], check=True)


def timed(*commands):
    """The seconds, and those of processor time, that runs one after the other take."""
    began, used = time.monotonic(), 0
    for words in commands:
        run = subprocess.Popen([program, *words], stdout=subprocess.DEVNULL)
        _, status, usage = os.wait4(run.pid, 0)
        run.returncode = os.waitstatus_to_exitcode(status)
        if run.returncode:
            sys.exit("%s ended with %d" % (words[0], run.returncode))
        used += usage.ru_utime + usage.ru_stime
    return time.monotonic() - began, used


commands = {"check": [("check", *paths)], "check, a command each": [("check", path) for path in paths], "check --json": [("check", "--json", *paths)],
            "info": [("info", *paths)], "power": [("power", *paths)], "map --to": [("map", *paths, "--to", os.path.join(folder, "maps"))],
            "log": [("log", *paths)], "log of a map of %d^3" % length: [("log", large)], "check of the same": [("check", large)]}
runs = [{name: timed(*words) for name, words in commands.items()} for _ in range(RUNS)]
print("%d files of %d records at 48^3, group 1" % (FILES, RECORDS))
for name in commands:
    seconds, used = (min(run[name][part] for run in runs) for part in (0, 1))
    print("%-26s %.3f s, processor time %.3f s" % (name, seconds, used))
if min(run["check"][0] for run in runs) > BAR:
    sys.exit("check is above %.0f s" % BAR)
TIMED
