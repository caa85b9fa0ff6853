#!/bin/sh
# Makes the MRC test's input anew and computes by brute force what it must print.
set -eu
cd "$(dirname "$0")/.."
python3 tools/mrc_cases.py cases > crates/mrc_test/stdin
python3 tools/mrc_cases.py answers > crates/mrc_test/stdout
