#!/usr/bin/env bash
# Times all turns of a scheduler's lanes beside the syntheses of the same jobs, P1 at 60^3, 120^3 and 240^3, one entry and eight at once:
# processor time, the least of five alternating runs, less than a minute once the library is proved.
set -eu
cd "$(dirname "$0")/.."
bin/build
out=$(mktemp -d)
trap 'rm -rf "$out"' EXIT
gcc -O3 -Iinclude -o "$out/lanes" bench/lanes.c target/staticlib/libexported.a
"$out/lanes"
