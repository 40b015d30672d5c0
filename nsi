#!/usr/bin/env bash
# Runs the program with these words: as it was built or, where no build is of these sources, the sources before any proof.
# Only the program, --help, --version and --test write to standard output.
set -u

root=$(dirname -- "$(readlink -f -- "${BASH_SOURCE[0]}")")
crate=$root/crates/nsi
program=$crate/out/nsi
# `rt try` hands on no more of an input.
most_tried=$((64 * 1024 * 1024 - 1))
whole_build='an hour or more on four processors'

main() {
    case $#:${1-} in
        1:--help) exec cat -- "$root/docs/help.txt" ;;
        1:--version) show_version ;;
        1:--build) build ;;
        1:--test) test_all ;;
        *) run "$@" ;;
    esac
}

# Built: no source is younger than the program, which is as old as what it was built from. After `rt ci` it is too.
state() {
    local younger
    [ -x "$program" ] || { echo 'not built'; return; }
    younger=$(shopt -s nullglob && cd -- "$root" &&
        find crates.txt crates/*/{src,specs,proofs} -newer "$program" -print -quit) || younger=unknown
    [ -z "$younger" ] && echo built || echo stale
}

run() {
    local state
    state=$(state)
    [ "$state" != built ] || exec "$program" "$@"
    require_rt "$state"
    if keeps_journals "$@"; then
        say "the program is $state, and only a built one keeps journals, so it is proved and built now"
        build
        clear_room
        exec "$program" "$@"
    fi
    say "the program is $state, so this call runs before any proof, once its input has ended; to prove and build: $0 --build"
    make_room
    # It reads nothing, so a terminal isn't waited for.
    [ "${1-}" != generate ] || exec </dev/null
    cat >"$room/input" || fail 'standard input could not be kept'
    try "$@"
    say 'the toolchain gives no answer before a proof here, so the program is proved and built now'
    build
    exec <"$room/input"
    clear_room
    exec "$program" "$@"
}

# `rt try` hands on no environment.
keeps_journals() {
    [ "${1-}" = provide ] && [ -n "${NSI_JOURNALS-}" ]
}

# Ends with the program's status and output, and returns where the toolchain couldn't run it to its end. Few calls end
# within the steps of the toolchain's interpreter, which is tried first, so it gets next to none.
try() {
    local status
    [ "$(wc -c <"$room/input")" -le "$most_tried" ] || return
    (cd -- "$crate" && exec rt try --steps 1000 -- "$@") <"$room/input" >"$room/output" 2>"$room/said"
    [[ $(tail -n 1 -- "$room/said") =~ ^run=ended\ status=([0-9]+)\  ]] || return
    status=${BASH_REMATCH[1]}
    # What the program itself answers where writing fails.
    if [ -s "$room/output" ]; then cat -- "$room/output" 2>/dev/null || status=3; fi
    exit "$status"
}

build() {
    local names name number=0 begun=$SECONDS
    if [ "$(state)" = built ]; then
        say "the program is built: $program"
        return
    fi
    require_rt "$(state)"
    make_room
    touch -- "$room/begun"
    mapfile -t names < <(crates_below)
    say "${#names[@]} crates are proved and built, one after another: $whole_build where nothing is built"
    for name in "${names[@]}"; do
        number=$((number + 1))
        build_crate "$name"
        say "$number of ${#names[@]} $name, $(duration $((SECONDS - begun)))"
        # Another run that was waited for may have built all.
        [ "$(state)" != built ] || break
    done
    touch -r "$room/begun" -- "$program"
    say "proved and built in $(duration $((SECONDS - begun))): $program"
}

# The program's crate and all that it stands on, lowest first, as crates.txt has them.
crates_below() {
    awk -F: '
        /^[a-z]/ { split($1, words, " "); name[++count] = words[1]; below[count] = $2 }
        END {
            wanted["nsi"]
            for (i = count; i; i--)
                if (name[i] in wanted) { split(below[i], parts, " "); for (k in parts) wanted[parts[k]] }
            for (i = 1; i <= count; i++)
                if (name[i] in wanted) print name[i]
        }' "$root/crates.txt"
}

build_crate() {
    local verb=lib wanted=0 status
    # The program without a word ends with status 4, with which no build that fails ends.
    [ "$1" != nsi ] || { verb=run wanted=4; }
    (cd -- "$root/crates/$1" && exec "$root/tools/rt" "$verb") </dev/null 2>&1 | show_waits >"$room/log"
    status=${PIPESTATUS[0]}
    [ "$status" -ne "$wanted" ] || return 0
    grep -v -e ': proved$' -e '^so far: ' -- "$room/log" | tail -n 60 >&2
    fail "the build of $1 failed with status $status"
}

# Passes lines on, and shows those that say for whom the toolchain waits.
show_waits() {
    local line
    while IFS= read -r line; do
        case $line in 'rt: '*waiting\ for*) printf '%s\n' "$line" >&2 ;; esac
        printf '%s\n' "$line"
    done
}

# Every proof and test by `rt ci`, and then rows and random inputs over the program that it left. The last line adds up theirs.
test_all() {
    local passed=0 failed=0
    require_rt unproved
    make_room
    step rt ci
    step tools/try-rows
    step tools/differential-test --seeds 6
    step tools/differential-run --seeds 1..200 --keep "${TMPDIR:-/tmp}"
    step tools/differential-run --seeds 1..80 --all --keep "${TMPDIR:-/tmp}"
    step tools/differential-race --seeds 1..200 --keep "${TMPDIR:-/tmp}"
    step tools/differential-race --crowd
    step tools/plain-verify --compare --seeds 1..20
    echo "$passed passed, $failed failed"
    [ "$failed" -eq 0 ]
}

# A step whose status or last line tells of nothing that passed has failed once itself.
step() {
    local status counts
    (cd -- "$root" && exec "$@") </dev/null | tee -- "$room/step"
    status=${PIPESTATUS[0]}
    if [[ $(tail -n 1 -- "$room/step") =~ ^([0-9]+)\ passed,\ ([0-9]+)\ failed$ ]]; then
        counts=("${BASH_REMATCH[@]:1}")
    else
        say "$1 ended without its count"
        counts=(0 0)
        status=1
    fi
    [ "$status" -eq 0 ] || [ "${counts[1]}" -ne 0 ] || counts[1]=1
    passed=$((passed + counts[0]))
    failed=$((failed + counts[1]))
}

show_version() {
    echo "nsi $(sed -n 's/^## \[\([0-9][^]]*\)\].*/\1/p' "$root/CHANGELOG.md" | head -n 1)"
    echo "toolchain: $(rt version 2>/dev/null || echo 'no command rt')"
}

duration() {
    if [ "$1" -lt 60 ]; then echo "$1 s"; else echo "$(($1 / 60)) min $(($1 % 60)) s"; fi
}

make_room() {
    [ -z "$room" ] || return 0
    room=$(mktemp -d) || fail 'there is no room for temporary files'
}

clear_room() {
    [ -z "$room" ] || rm -rf -- "$room"
}

require_rt() {
    command -v rt >/dev/null || fail "the program is $1, and there is no command rt to run or build it"
}

say() {
    echo "nsi: $1" >&2
}

fail() {
    say "$1"
    exit 70
}

room=
trap clear_room EXIT
trap 'exit 130' INT
trap 'exit 143' TERM
main "$@"
