#!/usr/bin/env bash
# Runs generated scripts through the program and through the model and compares the answers.
#
# usage: tests/compare.sh [KIND [COUNT [SEEDS]]]
#   KIND   a kind of tests/generate.py (default: all)
#   COUNT  calls in each script (default: 1000)
#   SEEDS  number of scripts, from seed 1 on (default: 50)
# The program is crates/sumtree/out/sumtree, which `tools/run sumtree` builds, or what SUMTREE names.

set -u
export LC_ALL=C

kind=${1:-all}
count=${2:-1000}
seeds=${3:-50}
tests=$(cd "$(dirname "$0")" && pwd)
program=${SUMTREE:-$tests/../crates/sumtree/out/sumtree}

if ! command -v "$program" >/dev/null; then
    echo "there is no program $program" >&2
    exit 2
fi

work=$(mktemp -d) || exit 2
trap 'rm -rf "$work"' EXIT

# first_other FILE FILE: the number of the first line that is not the same in both.
first_other() {
    awk 'NR == FNR { one[FNR] = $0 ""; last = FNR; next }
         FNR > last || one[FNR] != $0 "" { exit }
         { same = FNR }
         END { print same + 1 }' "$1" "$2"
}

# line N FILE: that line, or a word that there is none.
line() {
    if [ "$(wc -l <"$2")" -ge "$1" ]; then sed -n "$1p" "$2"; else echo "(no line)"; fi
}

compared=0
for ((seed = 1; seed <= seeds; seed++)); do
    python3 "$tests/generate.py" "$kind" "$seed" "$count" >"$work/script" || exit 2
    grep -an '^[^#]' "$work/script" >"$work/calls"
    python3 "$tests/model.py" <"$work/script" >"$work/expected" || exit 2
    "$program" script <"$work/script" >"$work/answers"
    status=$?
    if ! cmp -s "$work/expected" "$work/answers"; then
        other=$(first_other "$work/expected" "$work/answers")
        call=$(line "$other" "$work/calls")
        echo "$((compared + other - 1)) lines compared, then a difference"
        echo "seed:    $seed of kind $kind with $count calls"
        echo "line:    ${call%%:*}"
        echo "call:    ${call#*:}"
        echo "program: $(line "$other" "$work/answers")"
        echo "model:   $(line "$other" "$work/expected")"
        [ "$status" -eq 0 ] || echo "the program ended with status $status"
        exit 1
    fi
    if [ "$status" -ne 0 ]; then
        echo "seed $seed of kind $kind: all answers are equal, but the program ended with status $status"
        exit 1
    fi
    compared=$((compared + $(wc -l <"$work/expected")))
done
echo "$compared lines compared, all equal"
