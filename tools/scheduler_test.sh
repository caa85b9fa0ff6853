#!/bin/sh
# Makes the scheduler test's input anew and computes by brute force what it must print.
set -eu
cd "$(dirname "$0")/.."
python3 tools/scheduler_cases.py cases > crates/scheduler_test/stdin
python3 tools/scheduler_cases.py answers > crates/scheduler_test/stdout
