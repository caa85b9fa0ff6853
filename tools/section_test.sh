#!/bin/sh
# Makes the section test's input anew and computes by brute force what it must print.
set -eu
cd "$(dirname "$0")/.."
python3 tools/section_cases.py cases > crates/section_test/stdin
python3 tools/section_cases.py answers > crates/section_test/stdout
