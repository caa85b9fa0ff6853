#!/bin/sh
# Makes the calls of the line test and what it must print: crates/line_test/stdin and crates/line_test/stdout.
# The expected output comes from a program of its own, by direct sums (a minute).
set -eu
cd "$(dirname "$0")/.."
made=$(mktemp -d)
trap 'rm -r "$made"' EXIT
python3 tools/line_cases.py > crates/line_test/stdin
cc -O2 -std=c11 -Wall -Wextra -o "$made/line_expected" tools/line_expected.c
"$made/line_expected" < crates/line_test/stdin > crates/line_test/stdout
