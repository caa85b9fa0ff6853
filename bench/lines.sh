#!/usr/bin/env bash
# Times lines of 2,880 values of all kinds by the proved call beside each other, and the plain transform of 1,440 pairs beside the same
# algorithm in C at -O3: the least processor time of nine alternating runs, some seconds once the library is proved.
set -eu
cd "$(dirname "$0")/.."
bin/build
out=$(mktemp -d)
trap 'rm -rf "$out"' EXIT
gcc -O3 -Iinclude -o "$out/lines" bench/lines.c target/staticlib/libexported.a
"$out/lines" "${1:-1000}"
