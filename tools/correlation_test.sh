#!/bin/sh
# Makes the correlation test's input anew and computes by brute force what it must print.
set -eu
cd "$(dirname "$0")/.."
python3 tools/correlation_cases.py cases > crates/correlation_test/stdin
python3 tools/correlation_cases.py answers > crates/correlation_test/stdout
