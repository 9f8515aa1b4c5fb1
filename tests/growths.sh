#!/usr/bin/env bash
# Refuses each growth that a crate's tests ask for in turn. Where the growth with that number is refused, a
# test doesn't reach it and passes, or it ends with that refusal and with nothing else. It runs the proved
# tests that `rt ci` or `rt test` left, and proves and builds them where they are missing or a source is newer.
# With words, it takes the crates with these names alone. The last line is 'N passed, M failed', where one run
# of a crate's tests counts once.
set -u

top=$(cd "$(dirname "${BASH_SOURCE[0]}")/.." && pwd) || exit 1
. "$top/scripts/fresh.sh" || exit 1
. "$top/scripts/need.sh" && need rt "${CC:-cc}"
room=$(mktemp -d) || exit 1
trap 'rm -rf "$room"' EXIT
wanted=" $* "
passed=0
failed=0
handed_up=$'^growth refused\nerror: (AllocError|AllocFailed \\{ \\.\\. \\}|Check|[A-Za-z]+\\(OutOfMemory\\))\nthe test failed: its result gives status 1$'

# refuse TESTS NAME GROWTH: runs a test with the growth of that number refused, and judges it. Counts in `came`
# a test that reached that growth. Where `manages` is set, it may also pass: it then says itself that all was done.
refuse() {
    local said status
    said=$(timeout 60 env LD_PRELOAD="$room/refuse.so" REFUSED_GROWTH="$3" "$1" "$2" 2>&1)
    status=$?
    if [ "$status" -eq 0 ] && [ "$said" = $'\ntest result: ok' ]; then
        return 0
    fi
    came=$((came + 1))
    if [ "$status" -eq 101 ] && [[ $said =~ $handed_up ]]; then
        return 0
    fi
    if [ -n "$manages" ] && [ "$status" -eq 0 ] && [ "$said" = $'growth refused\n\ntest result: ok' ]; then
        return 0
    fi
    printf 'failed: %s with growth %d refused (status %d)\n%s\n' "$2" "$3" "$status" "$said"
    return 1
}

# refuse_all CRATE NAMES [manages]: refuses the growths of the tests whose names fit, until no test reaches one. The
# third word says that a refused growth may be made up for by a smaller one, as where a list is collected.
refuse_all() {
    local manages=${3:-}
    local tests=$top/crates/$1/out/$1_tests names name growth came=1 well
    [ "$wanted" = "  " ] || [[ $wanted == *" $1 "* ]] || return
    if ! is_fresh "$tests" && ! (cd "$top/crates/$1" && rt test); then
        failed=$((failed + 1))
        return
    fi
    names=$("$tests" --list | sed -n 's/: test$//p' | grep -xE "$2")
    for ((growth = 1; came > 0 && growth <= 1024; growth++)); do
        came=0
        well=1
        for name in $names; do
            refuse "$tests" "$name" "$growth" || well=0
        done
        # The first growth is one that some test asks for.
        [ "$growth" -gt 1 ] || [ "$came" -gt 0 ] || well=0
        passed=$((passed + well))
        failed=$((failed + 1 - well))
    done
    # To the last of them no test came.
    [ "$came" -eq 0 ] || failed=$((failed + 1))
    echo "$1, $2: growths 1 to $((growth - 1)) refused in turn"
}

if ! "${CC:-cc}" -O2 -shared -fPIC -o "$room/refuse.so" "$top/tests/refuse.c"; then
    echo "0 passed, 1 failed"
    exit 1
fi

refuse_all machine_tests 'intervals::.*'
refuse_all machine_tests 'active_set::.*'
refuse_all machine_tests 'embedded::.*'
refuse_all machine_tests 'machine::.*'
refuse_all machine_tests 'words::trace::.*'
refuse_all replay_tests 'places::.*'
refuse_all text_tests 'growths::.*'
refuse_all replay_tests 'replays::growths::.*'
refuse_all replay_tests 'commands::growths::.*'
refuse_all memory_tests 'growths::.*'
refuse_all long_lived_tests 'growths::.*'
refuse_all client_tests 'pipeline::growths::.*'
refuse_all picture_tests 'growths::.*' manages

echo "$passed passed, $failed failed"
[ "$failed" -eq 0 ]
