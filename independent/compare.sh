#!/bin/sh
# Compares a program with the stored answers, or with book.py, byte for byte.
#   compare.sh PROGRAM [DIR]                 the stored files, but those with few places
#   compare.sh PROGRAM --few [DIR]           the files few-places-P-..., run as PROGRAM --places P
#   compare.sh PROGRAM --random N SEED [P]   a generated stream of about N lines; with P, run as
#                                            PROGRAM --places P
# DIR is ../tests/files beside this file if it is not given.
# One line for each mismatch, then a summary; exit status 1 on any mismatch.

here=$(cd "$(dirname "$0")" && pwd)
program=$1
if [ -z "$program" ]; then
    sed -n '2,8s/^# //p' "$0" >&2
    exit 2
fi
shift

work=$(mktemp -d) || exit 2
trap 'rm -rf "$work"' EXIT
trap 'exit 2' HUP INT TERM

compared=0
wrong=0

# check NAME INPUT EXPECTED [OPTIONS]: runs the program and compares its output
check() {
    name=$1 input=$2 expected=$3
    shift 3
    "$program" "$@" <"$input" >"$work/found"
    status=$?
    compared=$((compared + 1))
    if [ $status -ne 0 ]; then
        echo "$name: exit status $status"
    elif ! difference=$(cmp "$expected" - <"$work/found" 2>&1); then
        echo "$name: ${difference#"$expected" - }"
    else
        return
    fi
    wrong=$((wrong + 1))
}

compare_random() {
    name="random $*"
    python3 -B "$here/generate.py" --lines "$1" "$2" >"$work/input" || exit 2
    if [ -n "$3" ]; then set -- --places "$3"; else set --; fi
    python3 -B "$here/book.py" "$@" <"$work/input" >"$work/expected" || exit 2
    check "$name" "$work/input" "$work/expected" "$@"
}

compare_stored() {
    for input in "$1"/*.txt; do
        name=$(basename "$input" .txt)
        places=
        case $name in few-places-*) places=${name#few-places-} places=${places%%-*} ;; esac
        if [ "$2" = few ] && [ -n "$places" ]; then
            check "$name" "$input" "$1/$name.expected" --places "$places"
        elif [ "$2" = all ] && [ -z "$places" ]; then
            check "$name" "$input" "$1/$name.expected"
        fi
    done
}

case $1 in
    --random) shift; compare_random "$@" ;;
    --few) compare_stored "${2:-$here/../tests/files}" few ;;
    *) compare_stored "${1:-$here/../tests/files}" all ;;
esac

echo "$compared compared, $wrong differ"
[ "$compared" -gt 0 ] && [ "$wrong" -eq 0 ]
