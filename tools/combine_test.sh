#!/bin/sh
# Makes the combine test's input anew and computes by brute force what it must print.
set -eu
cd "$(dirname "$0")/.."
python3 tools/combine_cases.py cases > crates/combine_test/stdin
python3 tools/combine_cases.py answers > crates/combine_test/stdout
