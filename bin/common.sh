# What bin/build, bin/sample, bin/install and bin/test share: what the machine must have, a line for each crate while rt proves, the first error where
# something fails, and the build of the library and of the tool. They source it in the repository's top folder.
# shellcheck shell=bash

# How long the command has run.
so_far() {
    if [ "$SECONDS" -lt 60 ]; then
        echo "$SECONDS s so far"
    else
        echo "$((SECONDS / 60)) min $((SECONDS % 60)) s so far"
    fi
}

fail() {
    echo "FAILED: $*"
    exit 1
}

# ---- what the machine must have

# The least version of cargo is the one that host/Cargo.toml names.
least_cargo() { sed -n 's/^rust-version = "\(.*\)"$/\1/p' host/Cargo.toml; }

purpose() { # PROGRAM
    case $1 in
    rt) echo "the Rattle toolchain, which proves and compiles every crate" ;;
    cargo) echo "of Rust $(least_cargo) or later, which builds the command line tool" ;;
    gcc) echo "the C compiler, with which cargo links the tool and the tests compile C" ;;
    cc) echo "the name by which cargo calls the C compiler to link the tool" ;;
    install) echo "of the GNU core utilities, which copies a file with its permissions" ;;
    python3) echo "in which the tests beside the proofs are written" ;;
    esac
}

# Whether what `cargo --version` said is the least version or a later one.
late_enough() { # SAID
    local version=${1#cargo }
    printf '%s\n' "$(least_cargo)" "${version%% *}" | sort -CV
}

# Names each program that the machine lacks, and what it is needed for; the command ends there if it lacks one.
need() { # PROGRAM...
    local program said lacking=0
    for program in "$@"; do
        if ! command -v "$program" > /dev/null; then
            echo "missing: $program, $(purpose "$program")"
        elif ! said=$("$program" --version 2>&1); then
            echo "does not run: $program, $(purpose "$program"): ${said%%$'\n'*}"
        elif [ "$program" = cargo ] && ! late_enough "$said"; then
            echo "too old: $said; needed is cargo $(purpose cargo)"
        else
            continue
        fi
        lacking=1
    done
    [ "$lacking" -eq 0 ] || exit 1
}

# ---- what rt prints, as a line for each crate, edit and program

# The crates that NAME stands on and NAME itself; with no NAME, every crate.
crates_of() { # [NAME]
    NAME=${1:-} awk '
        function visit(n,    a, k, m) {
            if (!(n in deps) || n in seen) return
            seen[n]
            m = split(deps[n], a, " ")
            for (k = 1; k <= m; k++) visit(a[k])
            print n
        }
        { sub(/#.*/, "") }
        i = index($0, ":") { split(substr($0, 1, i - 1), word, " "); deps[word[1]] = substr($0, i + 1) }
        END { if (ENVIRON["NAME"]) visit(ENVIRON["NAME"]); else for (n in deps) visit(n) }' crates.txt
}

# A crate is counted once, however often rt names it.
crate_proved() { # NAME
    case $seen in *" $1 "*) return 0 ;; esac
    seen="$seen$1 " proved=$((proved + 1))
    echo "proved $proved of $crates: $1, $(so_far)"
}

# Says what is not as it must be, and keeps the first such thing with its error.
wrong() { # WHAT REASON
    local place=''
    [[ ! $2 =~ ^[^\ ]+:[0-9]+:[0-9]+: ]] || place=", at ${BASH_REMATCH[0]%:}"
    echo "$1$place, $(so_far)"
    [ -n "$fault" ] || fault=$1 why=${2:0:400}
}

# Keeps the first error that rt tells of the crate that it is at, its file named from here.
keep_error() { # LINE
    local said=${1#./}
    case $said in src/* | specs/* | proofs/*) said=crates/$crate/$said ;; esac
    error=${error:-${said//"$PWD/"/}}
}

# A line of rt's own.
said_by_rt() { # LINE
    local name=${1%%[ :]*} about=${1#*: }
    case $1 in
    'chose --jobs '*' for '*) crate=${1##* } alone="crate $crate is NOT PROVED" error='' said='' ;;
    'must-fail '*)
        edit=$((edit + 1)) name=${1#must-fail } name=${name%%: *}
        case $about in
        'refused, '*) echo "edit $edit of $edits refused: ${name%.edit}, $(so_far)" ;;
        *) wrong "edit $edit of $edits is ${about%%: *}: ${name%.edit}" "crates/${name%/*}/must-fail/${name#*/}: ${about#*: }" ;;
        esac
        ;;
    *': BAD EDIT: '*) wrong "an edit is BAD EDIT: ${1%%: *}" "$1" ;;
    "$name proved") crate_proved "$name" ;;
    "$name NOT PROVED: its library "*) [ -n "$fault" ] || wrong "crate $name is NOT PROVED" "$1" ;;
    "$name NOT PROVED") wrong "crate $name is NOT PROVED" "${error:-${said:-$1}}" ;;
    "$name ran, and wrote what its file stdout has")
        program=$((program + 1))
        echo "program $program of $programs ran: $name, $(so_far)"
        ;;
    "$name ran (built by "*) echo "and as Rattle's own compiler builds it: $name, $(so_far)" ;;
    "$name: what the program wrote, "* | "$name: the program "* | "$name (built by "*) wrong "program $name WENT WRONG" "$about" ;;
    *) said=${1//"$PWD/"/} ;;
    esac
}

# Reads what rt prints. Its status is 1 if it has named an error. Under `rt ci` the lines of a crate come together, and then whether it is proved;
# under `rt lib` they come as they are told, behind the line that names the crate.
progress() { # how many crates are to be proved
    local crates=$1 edits programs line crate='' alone='' seen=' ' proved=0 edit=0 program=0 error='' said='' ended='' fault='' why=''
    edits=$(find crates -path '*/must-fail/*.edit' | wc -l) programs=$(find crates -path '*/src/main.rt' | wc -l)
    while IFS= read -r line; do
        case $line in
        'rt: '*) said_by_rt "${line#rt: }" ;;
        '== '*) crate=${line#== } crate=${crate%%:*} alone='' error='' said='' ;;
        'logic=proved '*) [ -z "$alone" ] || { crate_proved "$crate" && alone=''; } ;;
        *:[0-9]*:[0-9]*': error'* | 'rattle: '*) keep_error "$line" ;;
        'note: '*:[0-9]*:[0-9]*': '*) keep_error "${line#note: }" ;;
        'rt ended with status '*) ended=$line ;;
        esac
    done
    [ -z "$ended" ] || [ -n "$fault" ] || wrong "${alone:-rt stopped}" "${error:-${said:-$ended}}"
    if [ -n "$fault" ]; then
        echo "FAILED: $fault"
        echo "first error: $why"
        return 1
    fi
    [ "$proved" -eq "$crates" ] || echo "$((crates - proved)) of $crates crates were proved before"
}

# Runs rt with its whole output in a log, and prints the progress that it makes. Its status is 1 if rt failed, or told of anything that is not as it must be.
watched() { # LOG CRATES COMMAND...
    local log=$1 crates=$2
    shift 2
    { "$@" || echo "rt ended with status $?"; } 2>&1 | tee "$log" | progress "$crates"
}

# ---- the library and the tool

archive=target/staticlib/libexported.a
# What the archive was built from, and the archive itself: written when it is whole.
built=target/library.built

# rt proves what the library stands on where that has changed, and leaves the archive in the crate's folder.
prove_library() {
    (cd crates/exported_c && rt lib) && mkdir -p "${archive%/*}" && cp crates/exported_c/out/libexported_c.a "$archive"
}

# All that the archive is built from: the toolchain, the list of crates, and every file of those that the library stands on, by name and contents,
# but not what rt keeps in their out/. `rt lib` proves the last crate anew each time, however little has changed, so what it would read is compared here.
sources() {
    rt version
    # shellcheck disable=SC2046
    find crates.txt $(crates_of exported_c | sed 's,^,crates/,') -name out -prune -o -type f -print0 | sort -z | xargs -0 sha256sum
}

# Whether the archive is the one that was built from the sources as they are.
is_built() { # SOURCES
    [ -f "$archive" ] && [ -f "$built" ] && [ "$(printf '%s\n' "$1" && sha256sum "$archive")" = "$(cat "$built")" ]
}

build() {
    local crates from
    crates=$(crates_of exported_c | wc -l)
    mkdir -p target
    from=$(sources) || fail "the sources of the library cannot be read"
    if is_built "$from"; then
        echo "The library is as it was proved: nothing that it is built from has changed"
    else
        rm -f "$built"
        echo "The library is built from $crates crates, each proved; the prover's notes go to target/library.log"
        if ! watched target/library.log "$crates" prove_library; then
            echo "whole log: target/library.log"
            exit 1
        fi
        { printf '%s\n' "$from" && sha256sum "$archive"; } > "$built"
    fi
    cargo build --quiet --release --locked --offline --manifest-path host/Cargo.toml || fail "cargo did not build the tool under host/"
    echo "built host/target/release/recorder, $(so_far)"
}
