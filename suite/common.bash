# What the suites share, to be sourced: the folders `top` and `work` (the latter is removed at the end), the models' commands in `models`, an empty file
# $work/nothing, the numbers of suite/counts in `counts`, comparisons that are counted, and runs in which an allocation is refused
# (MOST_ALLOCATIONS is where a suite gives up).
set -u
top=$(cd "$(dirname "${BASH_SOURCE[0]}")/.." && pwd)
models=$top/suite/models
work=$(mktemp -d)
trap 'rm -rf "$work"' EXIT
passed=0
failed=0
most_allocations=${MOST_ALLOCATIONS:-100000}
: > "$work/nothing"
declare -A counts
while read -r name number _; do
    [ "$name" = '#' ] || counts[$name]=$number
done < "$top/suite/counts"

# needs PROGRAM: ends the suite where the program is not built
needs() {
    [ -x "$1" ] || { echo "$0: there is no program at $1: run ./test, or tools/build with its name" >&2; exit 1; }
}

fail() {
    failed=$((failed + 1))
    echo "FAILED $1"
}

# check NAME STATUS EXPECTED ERRORS GOT: compares the files $work/out and $work/err, and the status; ERRORS may be
# a file, 'none' (nothing is told) or 'some' (usage is told)
check() {
    local name=$1 status=$2 expected=$3 errors=$4 got=$5 why=
    [ "$got" = "$status" ] || why+=" exit $got in place of $status;"
    cmp -s "$work/out" "$expected" || why+=" other output;"
    case $errors in
    none) [ -s "$work/err" ] && why+=" something on standard error;" ;;
    some) [ -s "$work/err" ] || why+=" nothing on standard error;" ;;
    *) cmp -s "$work/err" "$errors" || why+=" other standard error;" ;;
    esac
    if [ -z "$why" ]; then
        passed=$((passed + 1))
    else
        fail "$name:${why%;}"
        diff "$expected" "$work/out" | cut -c1-160 | head -n 4
        head -c 400 "$work/err"
    fi
}

# exactly WHAT COUNT COMPARED: as many were compared as there are, and not none
exactly() {
    if [ "$3" -eq "$2" ] && [ "$3" -gt 0 ]; then
        passed=$((passed + 1))
    else
        fail "$1: $3 were compared, where there are $2"
    fi
}

# at_least WHAT LEAST COUNT: no fewer were compared than there are, and not none
at_least() {
    if [ "$3" -ge "$2" ] && [ "$3" -gt 0 ]; then
        passed=$((passed + 1))
    else
        fail "$1: $3 were compared, where there are $2 at least"
    fi
}

# ready_to_refuse: makes the library that refuses allocations
ready_to_refuse() {
    "${CC:-cc}" -O1 -shared -fPIC -o "$work/refuse_alloc.so" "$top/tools/refuse_alloc.c" -ldl && return
    fail 'no C compiler made tools/refuse_alloc.c'
    finish
    exit 1
}

# refusing N COMMAND..: runs a command whose Nth allocation is refused; $work/refused is there if it came to that
refusing() {
    local number=$1
    shift
    rm -f "$work/refused"
    REFUSE_ALLOC=$number REFUSE_ALLOC_MARK=$work/refused LD_PRELOAD=$work/refuse_alloc.so "$@"
}

# went_through NAME N LEAST: the loop over allocations ended at the Nth because the run went through, and not at its limit,
# after at least so many were refused
went_through() {
    echo "$1: $(($2 - 1)) allocations"
    if [ "$2" -gt "$most_allocations" ]; then
        fail "$1: the run did not go through with $most_allocations allocations"
    else
        at_least "$1, allocations" "$3" $(($2 - 1))
    fi
}

# configuration_of SCENE: the configuration that its first line names
configuration_of() {
    echo "$top/suite/configurations/$(sed -n 's/^# config: //p' "$1").toml"
}

# finish: the last line; a suite that compared nothing has failed
finish() {
    [ "$passed" -gt 0 ] || [ "$failed" -gt 0 ] || fail 'nothing was compared'
    echo "$passed passed, $failed failed"
    [ "$failed" -eq 0 ]
}
