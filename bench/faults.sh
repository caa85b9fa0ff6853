#!/usr/bin/env bash
# Times the fewest records at fault of full files beside their opening: processor time, the least of five alternating runs, less than a minute
# once the library is proved.
set -eu
cd "$(dirname "$0")/.."
bin/build
out=$(mktemp -d)
trap 'rm -rf "$out"' EXIT
gcc -O3 -Wall -Wextra -Iinclude -o "$out/faults" bench/faults.c target/staticlib/libexported.a
"$out/faults"
