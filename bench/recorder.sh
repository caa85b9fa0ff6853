#!/usr/bin/env bash
# Times synthesis and analysis of the proved calls beside the same passes in C at -O3 and FFTW's double transforms, then records and factor
# files: processor time, the least of five alternating runs, less than three minutes once the library is proved.
#   --against COMMIT  instead, this version beside that of COMMIT (or of ARCHIVE, its libexported.a) in one alternating run: all groups, both
#                     primes, the longest axis each way, small grids. Some minutes once both are proved; COMMIT is proved in a folder of its own, so
#                     it has to be one that this rt proves
#   growth            instead, how the cost grows with the volume: figures for plot.py, about a minute
#   profile           instead, the shares of the proved functions in a synthesis of P1 at 240^3, by perf
set -eu
cd "$(dirname "$0")/.."
out=$(mktemp -d)
trap 'git worktree remove --force "$out/tree" 2>/dev/null || true; rm -rf "$out"' EXIT
bin/build
library=target/staticlib/libexported.a
options=(-O3 -Iinclude)
libraries=()

with_fftw() {
    if echo '#include <fftw3.h>
int main(void) { fftw_cleanup(); return 0; }' | gcc -x c -o "$out/probe" - -lfftw3 -lm 2>/dev/null; then
        options+=(-DFFTW)
        libraries+=(-lfftw3 -lm)
    else
        echo "FFTW is not installed here: its columns are empty"
    fi
}

against() { # COMMIT or ARCHIVE
    local old=$1
    if [ ! -f "$old" ]; then
        git worktree add --detach "$out/tree" "$old" >/dev/null 2>&1
        (cd "$out/tree" && bin/build)
        old=$out/tree/$library
    fi
    # every function of the old archive gets another name, and what it calls with it
    nm "$old" | awk 'NF == 3 && $2 != "U" { print $3 " old_" $3 }' | sort -u > "$out/names"
    objcopy --redefine-syms="$out/names" "$old" "$out/libold.a"
    gcc "${options[@]}" -o "$out/versions" bench/versions.c "$library" "$out/libold.a" "${libraries[@]}"
    "$out/versions"
}

profile() {
    gcc "${options[@]}" -o "$out/recorder" bench/recorder.c "$library"
    perf record -q -o "$out/profile" "$out/recorder" 2 || { echo "perf does not run here"; exit 1; }
    # Names with :: and recorder_ are proved functions; the others are the C analysis that made the factors.
    perf report -i "$out/profile" --stdio 2>/dev/null | awk '
        /::|recorder_/ && $1 ~ /%$/ { share[$NF] = $1 + 0; total += $1 }
        END { for (name in share) if (share[name] > total / 1000) printf "%5.1f%% %s\n", 100 * share[name] / total, name }' | sort -rn
}

case ${1:-} in
    "")
        with_fftw
        gcc "${options[@]}" -o "$out/recorder" bench/recorder.c "$library" "${libraries[@]}"
        "$out/recorder"
        ;;
    --against)
        with_fftw
        against "${2:?recorder.sh --against COMMIT or ARCHIVE}"
        ;;
    growth)
        gcc "${options[@]}" -o "$out/growth" bench/growth.c "$library"
        "$out/growth"
        ;;
    profile) profile ;;
    *)
        echo "recorder.sh takes --against COMMIT, growth, profile, or nothing" >&2
        exit 2
        ;;
esac
