# Read by the scripts that try a program from outside, with two words:
#
#     . "$(dirname "$0")/tries.sh" PROGRAM PATH
#
# PROGRAM is the program's name, and PATH that of another one in its place, or empty. From then on the
# folder is the repository's, $work is one for files, and each try counts. `end_tries` comes last.
set -euo pipefail
script="${0##*/}"
called="$1"
program="$2"
if [ -n "$program" ]; then
    program="$(realpath -m "$program")"
fi
cd "$(dirname "$0")/.."

program="${program:-$PWD/crates/$called/out/$called}"
if [ ! -x "$program" ]; then
    echo "tests/$script: there is no program $program: run \`rt run\` in crates/$called first" >&2
    exit 1
fi
work="$(mktemp -d)"
trap 'rm -rf "$work"' EXIT
# Seconds that no run comes near. One that takes longer waits for something.
most=20
tries=0
failures=0
# What the program is to say on standard error. A script may fill it.
: >"$work/wanted_said"

fail() { # fail NAME WHAT
    failures=$((failures + 1))
    echo "$script: $1: $2"
}

end_tries() {
    if [ "$failures" -gt 0 ]; then
        exit 1
    fi
    echo "$script: all $tries tries hold"
}

# run WORDS...: the program on this standard input, with these words. Leaves its exit status in
# $status.
run() {
    status=0
    timeout "$most" "$program" "$@" >"$work/printed" 2>"$work/said" || status=$?
}

# prints NAME WORDS...: on this standard input, with these words, the program prints what the file
# wanted has, and says what the file wanted_said has.
prints() {
    local name="$1"
    shift
    tries=$((tries + 1))
    run "$@"
    if [ "$status" != 0 ]; then
        fail "$name" "exit status $status"
    elif ! cmp "$work/wanted" "$work/printed"; then
        fail "$name" "prints other than wanted; its last line is $(tail -n 1 "$work/printed")"
    elif ! cmp "$work/wanted_said" "$work/said"; then
        fail "$name" "says other than wanted; its last line is $(tail -n 1 "$work/said")"
    fi
}

# complains NAME PATTERN WORDS...: on this standard input, with these words, the program prints
# nothing, and says one line that matches the pattern.
complains() {
    local name="$1" pattern="$2"
    shift 2
    tries=$((tries + 1))
    run "$@"
    if [ "$status" != 0 ]; then
        fail "$name" "exit status $status"
    elif [ -s "$work/printed" ]; then
        fail "$name" "prints $(tail -n 1 "$work/printed")"
    elif [ "$(wc -l <"$work/said")" != 1 ] || ! grep -Exq "$pattern" "$work/said"; then
        fail "$name" "does not say $pattern but $(cat "$work/said")"
    fi
}

# ends NAME OUTPUT WORDS...: the program ends, and not by a signal, where nothing can be printed:
# OUTPUT is the file that standard output goes to, or closed.
ends() {
    local name="$1" output="$2" status=0
    shift 2
    tries=$((tries + 1))
    if [ "$output" = closed ]; then
        timeout "$most" "$program" "$@" >&- 2>"$work/said" || status=$?
    else
        timeout "$most" "$program" "$@" >"$output" 2>"$work/said" || status=$?
    fi
    [ "$status" -lt 124 ] || fail "$name" "exit status $status"
}

repeat() { # repeat COUNT TEXT
    local blanks
    printf -v blanks '%*s' "$1" ''
    printf '%s' "${blanks// /$2}"
}

one_by_one() { # one_by_one TEXT: byte after byte, with time enough to read each alone
    local place
    for ((place = 0; place < ${#1}; place++)); do
        printf '%s' "${1:place:1}"
        sleep 0.01
    done
}

# The file descriptor 9 becomes a pipe that stays open behind what is written to it.
open_pipe() {
    mkfifo "$work/pipe"
    exec 9<>"$work/pipe"
}

close_pipe() {
    exec 9>&-
    rm "$work/pipe"
}
