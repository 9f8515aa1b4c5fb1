#!/usr/bin/env bash
# Draws the pictures that stand in docs/pictures/. With --check it changes nothing, and says whether the program draws
# the same again; that alone says nothing of what they show, so each is compared with its plan and its outcome too.
# The last line is 'N passed, M failed'. PICTURE may name a built program; else it is ./picture.
set -u

top=$(cd "$(dirname "${BASH_SOURCE[0]}")/.." && pwd) || exit 1
program=${PICTURE:-$top/picture}
check=${1:-}
room=$(mktemp -d) || exit 1
trap 'rm -rf "$room"' EXIT
passed=0
failed=0

# picture NAME WORD..: the picture of the plan with this name, by these words.
picture() {
    local name=$1 kept=$top/docs/pictures/$1.svg
    shift
    if "$program" "$top/plans/$name.plan" "$@" >"$room/drawn" &&
        { [ "$check" = --check ] || cp "$room/drawn" "$kept"; } && cmp "$room/drawn" "$kept" &&
        "$top/tests/drawing.py" "$kept" "$top/plans/$name.plan" "$top/plans/$name.expected"; then
        passed=$((passed + 1))
    else
        failed=$((failed + 1))
        echo "failed: docs/pictures/$name.svg"
    fi
}

mkdir -p "$top/docs/pictures"
picture lost_exchange
picture borrowed_view
picture vacated_list --words

echo "$passed passed, $failed failed"
[ "$failed" -eq 0 ]
