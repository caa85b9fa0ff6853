#!/bin/sh
# Makes the window test's input anew and computes by brute force what it must print.
set -eu
cd "$(dirname "$0")/.."
python3 tools/window_cases.py cases > crates/window_test/stdin
python3 tools/window_cases.py answers > crates/window_test/stdout
