#!/usr/bin/env bash
# Makes the recorder test's input anew and computes by brute force what it must print.
set -eu
cd "$(dirname "$0")/.."
{ python3 tools/job_cases.py cases; python3 tools/file_cases.py cases; } > crates/recorder_test/stdin
{ python3 tools/job_cases.py answers; python3 tools/file_cases.py answers; } > crates/recorder_test/stdout
