#!/bin/sh
# Tests what an update publishes, by a pair of programs (bindings/c/ordering.c) under the C compiler's thread sanitizer: an
# applied update publishes what its thread wrote before, so the first isn't reported; a lost one publishes nothing, so the
# second has to be reported as a race. The library is the text with no proof (bindings/unproved.py), which the kit's clang
# instruments. It ends with the first fault.
set -eu
cd "$(dirname "$0")/.."
. scripts/need.sh && need rt "${CC:-cc}" objcopy
. scripts/instrument.sh
made=$(mktemp -d)
trap 'rm -rf "$made"' EXIT
kit=$(dirname "$(rt doc)")
stop() {
    echo "ordering: failed: $1"
    exit 1
}
bindings/unproved.py "$made/door.ll"
instrument thread "$made/door.ll" "$made/door.o" || stop "the library isn't instrumented"
"${CC:-cc}" -std=c11 -O1 -fsanitize=thread -I bindings/c bindings/c/ordering.c "$made/door.o" "$kit/c/liblibc_c.a" -pthread \
    -o "$made/ordering"
"$made/ordering" applied || stop "an applied update publishes what its thread wrote before"
# A run in which no update was lost ends with 2, and shows nothing.
ended=2
for _ in 1 2 3 4 5 6 7 8 9 10; do
    [ "$ended" -eq 2 ] || break
    ended=0
    "$made/ordering" lost >"$made/said" 2>&1 || ended=$?
done
grep -q 'WARNING: ThreadSanitizer: data race' "$made/said" && [ "$ended" -gt 2 ] || {
    tail -n 20 "$made/said"
    stop "a program that relies on a lost update isn't reported (status $ended)"
}
