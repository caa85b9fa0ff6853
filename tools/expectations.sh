#!/usr/bin/env bash
# Computes anew, by direct sums and brute force, what the test programs are given and must print, and holds what is stored to it. The other
# scripts of this folder store it.
set -eu
cd "$(dirname "$0")/.."
made=$(mktemp -d)
trap 'rm -r "$made"' EXIT
cc -O2 -std=c11 -Wall -Wextra -o "$made/line_expected" tools/line_expected.c
held() {
    local stored=$1
    shift
    if ! "$@" | cmp - "$stored"; then
        echo "$stored is not what $* gives" >&2
        exit 1
    fi
}
held crates/plain_test/stdout python3 tools/plain_expected.py
held crates/line_test/stdin python3 tools/line_cases.py
held crates/line_test/stdout "$made/line_expected" < crates/line_test/stdin
both() {
    python3 tools/job_cases.py "$1"
    python3 tools/file_cases.py "$1"
}
held crates/window_test/stdin python3 tools/window_cases.py cases
held crates/window_test/stdout python3 tools/window_cases.py answers
held crates/combine_test/stdin python3 tools/combine_cases.py cases
held crates/combine_test/stdout python3 tools/combine_cases.py answers
held crates/section_test/stdin python3 tools/section_cases.py cases
held crates/section_test/stdout python3 tools/section_cases.py answers
held crates/correlation_test/stdin python3 tools/correlation_cases.py cases
held crates/correlation_test/stdout python3 tools/correlation_cases.py answers
held crates/mrc_test/stdin python3 tools/mrc_cases.py cases
held crates/mrc_test/stdout python3 tools/mrc_cases.py answers
held crates/scheduler_test/stdin python3 tools/scheduler_cases.py cases
held crates/scheduler_test/stdout python3 tools/scheduler_cases.py answers
held crates/recorder_test/stdin both cases
held crates/recorder_test/stdout both answers
echo "17 stored expectations agree with what is computed anew"
