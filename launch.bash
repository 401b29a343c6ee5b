# What the launchers share: they source this file, set `name`, `crate`, `program` and `trial`, define
# `help` and `reads_input`, and call `launch` with their words.
# shellcheck shell=bash disable=SC2154

readonly VERSION=0.1.0
# The status where the program could not be built; its own are 0 to 8.
readonly NOT_BUILT=125
# What the toolchain's trial of a program may do: these bounds are far above any run's.
readonly STEPS=1000000000000
readonly SECONDS_OF_TRIAL=86400
# How long a proof of all crates can take, on four processors with nothing kept.
readonly MINUTES=20

root=$(dirname -- "$(readlink -f -- "${BASH_SOURCE[0]}")")
readonly root

say() {
    printf '%s: %s\n' "$name" "$1" >&2
}

fail() {
    say "$1"
    exit "$NOT_BUILT"
}

# Whether the proved program is missing, or older than a source, a definition or the list of crates.
is_stale() {
    [[ ! -x $program ]] && return
    local newer
    newer=$(find "$root/crates.txt" "$root/crates" -name out -prune -o \
        \( -name crates.txt -o -path '*/src' -o -path '*/src/*' -o -path '*/specs' -o -path '*/specs/*' \) \
        -newer "$program" -print -quit)
    [[ -n $newer ]]
}

need_toolchain() {
    command -v rt >/dev/null || fail "there is no proved program, and no command rt to build one with"
}

# Tells of each crate that was read, ten at a time, and of each that was proved, from what `rt all check` prints.
tell_progress() {
    local total=$1 read=0 proved=0 line began=$SECONDS
    while IFS= read -r line; do
        printf '%s\n' "$line" >>"$2"
        if [[ $line == 'only=0 proved=0'* ]]; then
            read=$((read + 1))
            ((read % 10)) || say "read $read of $total crates, $(((SECONDS - began) / 60)) minutes so far"
        elif [[ $line =~ ^==\ ([a-z0-9_]+)$ && ${BASH_REMATCH[1]} != summary ]]; then
            proved=$((proved + 1))
            say "proved $proved of $total crates, $(((SECONDS - began) / 60)) minutes so far: ${BASH_REMATCH[1]}"
        fi
    done
}

# Proves all crates, as many at once as there are processors, and builds the program. The program that is run
# is a copy, which takes its place at once and has the time at which the build began.
build() {
    local began total
    began=$(date +%s.%N)
    log=$(mktemp)
    trap 'rm -f -- "$log"' EXIT
    total=$(grep -cE '^[a-z0-9_]+( [^:]*)?:' "$root/crates.txt")
    say "proving $total crates; what this machine has kept is not proved again"
    if ! (cd -- "$root/crates" && PYTHONUNBUFFERED=1 rt all check --jobs "$(nproc)" 2>&1 </dev/null) | tell_progress "$total" "$log" ||
        ! (cd -- "$crate" && rt run -- "${trial[@]}" </dev/null >/dev/null 2>>"$log"); then
        tail -n 40 -- "$log" >&2
        fail 'the program could not be built'
    fi
    cp -- "$crate/out/${crate##*/}" "$program.$$"
    touch -d "@$began" -- "$program.$$"
    mv -f -- "$program.$$" "$program"
}

# The same by one launcher at a time; one that waited for another looks again.
build_in_turn() {
    need_toolchain
    local lock
    exec {lock}<"$root/crates"
    flock "$lock"
    if is_stale; then
        build
    fi
    exec {lock}<&-
    say 'the program is proved and built'
}

# Compiles the same sources without a proof, and runs that once with these words. It leaves nothing behind. The
# trial has its input and its output in files, so faults of the streams are told here, as the program does.
run_unproved() {
    need_toolchain
    say "this build is not proved (\`./$name --build\` proves it, which takes up to $MINUTES minutes)"
    trial_folder=$(mktemp -d)
    trap 'rm -rf -- "$trial_folder"' EXIT
    : >"$trial_folder/input"
    if reads_input "$@" && ! cat >"$trial_folder/input" 2>/dev/null; then
        say 'read fault'
        exit 5
    fi
    (cd -- "$crate" && exec rt try --steps "$STEPS" --seconds "$SECONDS_OF_TRIAL" -- "$@") \
        <"$trial_folder/input" >"$trial_folder/output" 2>"$trial_folder/errors" || true
    local status
    status=$(sed -nE 's/^run=ended status=([0-9]+) .*/\1/p' "$trial_folder/errors")
    if [[ -z $status ]]; then
        cat -- "$trial_folder/errors" >&2
        fail 'the program could not be built'
    fi
    if ! cat -- "$trial_folder/output" 2>/dev/null; then
        say 'write fault'
        exit 6
    fi
    sed -E '/^(checked: |run=ended )/d' "$trial_folder/errors" >&2
    exit "$status"
}

# Answers --help, --version and --build; runs the program with any other words. With PROVED_ONLY set in the
# environment it runs no unproved build.
launch() {
    case $#:${1-} in
        1:--help) help ;;
        1:--version) printf '%s %s\n' "$name" "$VERSION" ;;
        1:--build) build_in_turn ;;
        *)
            if is_stale; then
                [[ -z ${PROVED_ONLY-} ]] || fail 'there is no proved program that is up to date'
                run_unproved "$@"
            fi
            exec "$program" "$@"
            ;;
    esac
}
