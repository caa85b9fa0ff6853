#!/usr/bin/env bash
# Times the drift of ten million scores by the proved call, over windows of 1 to 64 entries: processor time, the least of five alternating
# runs, some seconds once the library is proved.
set -eu
cd "$(dirname "$0")/.."
bin/build
out=$(mktemp -d)
trap 'rm -rf "$out"' EXIT
gcc -O3 -Iinclude -o "$out/drift" bench/drift.c target/staticlib/libexported.a
"$out/drift"
