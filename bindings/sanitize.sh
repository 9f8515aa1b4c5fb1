#!/bin/sh
# sanitize.sh: runs the test and the example in C, and the tests of the crate for Rust, under the sanitizers: address and
# undefined behaviour, and data races. The library is instrumented too: bindings/bitcode.sh builds it as bitcode, the
# kit's clang instruments that, and the system's clang links it with its run-time. The undefined-behaviour sanitizer
# sees the header's functions and the programs alone, since it works on C. To show that a race would be found, a library
# whose loads aren't atomic any more has to be reported.
# A pair of programs shows what an update publishes: an applied one what its thread wrote before, a lost one nothing, so the
# second program has to be reported.
# It is no part of the gate. It wants rt, clang with its sanitizers, objcopy and, for the crate for Rust, a nightly cargo.
# With --unproved it takes the library's text with no proof (bindings/unproved.py), which takes a minute.
# The last line is 'N passed, M failed'.
set -u
[ $# -eq 0 ] || [ "$*" = --unproved ] || { echo "usage: bindings/sanitize.sh [--unproved]" >&2; exit 2; }
cd "$(dirname "$0")/.." || exit 2
. scripts/need.sh && need rt clang objcopy
. scripts/instrument.sh || exit 2
made=$(mktemp -d) || exit 2
trap 'rm -rf "$made"' EXIT
passed=0
failed=0
item() {
    name=$1
    shift
    if "$@" >"$made/log" 2>&1; then
        passed=$((passed + 1))
    else
        failed=$((failed + 1))
        echo "sanitize: failed: $name"
        tail -n 20 "$made/log"
    fi
}
kit=$(dirname "$(rt doc)")
# compile SANITIZERS SOURCE LIBRARY OUT: compiles this program in C over an instrumented library, and with it the second
# file of the test of memories, which others don't call.
compile() {
    clang -std=c11 -O1 -g "-fsanitize=$1" -fno-sanitize-recover=undefined -I bindings/c "$2" bindings/c/elsewhere.c "$3" \
        "$kit/c/liblibc_c.a" -pthread -o "$4"
}
# Whether the thread sanitizer reports a race of this program, which is called with these words.
races() {
    ! "$@" >"$made/raced" 2>&1 && grep -q 'WARNING: ThreadSanitizer: data race' "$made/raced"
}
# rust SANITIZER LIBRARY: the tests of the crate for Rust over an instrumented library, but for those that forget a
# memory or a port, and so leak it.
rust() {
    mkdir -p "$made/rust" && rm -f "$made/rust/libpartial_door.a" &&
        "$kit/toolchain/bin/llvm-ar" rcs "$made/rust/libpartial_door.a" "$2" &&
        (cd bindings/rust && PARTIAL_DOOR_LIB=$made/rust/libpartial_door.a RUSTFLAGS=-Zsanitizer=$1 \
            CARGO_TARGET_DIR=$made/target cargo +nightly test --offline --quiet --tests \
            --target x86_64-unknown-linux-gnu -- --skip forgotten)
}

if [ "$*" = --unproved ]; then
    item "the library's text is made with no proof" bindings/unproved.py "$made/door.ll"
else
    item "the library is built as bitcode" bindings/bitcode.sh "$made/bitcode/libpartial_door.a"
    (cd "$made/bitcode" && "$kit/toolchain/bin/llvm-ar" x libpartial_door.a && cp partial_door.o partial_door.bc) &&
        "$kit/toolchain/bin/clang" -S -emit-llvm "$made/bitcode/partial_door.bc" -o "$made/door.ll" || failed=$((failed + 1))
fi
for sanitizer in address thread; do
    with=$sanitizer
    [ "$sanitizer" = thread ] || with=$sanitizer,undefined
    item "the library is instrumented ($sanitizer)" instrument "$sanitizer" "$made/door.ll" "$made/door_$sanitizer.o"
    for source in bindings/c/test.c bindings/c/memory_test.c bindings/c/growths.c bindings/c/examples/*.c; do
        # The test of refused growths has one thread and a malloc of its own, under which that run-time doesn't start.
        [ "$sanitizer $source" = "thread bindings/c/growths.c" ] && continue
        program=$made/$(basename "$source" .c)_$sanitizer
        item "$source is compiled ($with)" compile "$with" "$source" "$made/door_$sanitizer.o" "$program"
        item "$source ($with)" "$program" 100000
    done
done
item "what an update publishes: its program is compiled" compile thread bindings/c/ordering.c "$made/door_thread.o" \
    "$made/ordering"
item "an applied update publishes what its thread wrote before" "$made/ordering" applied
item "a lost update publishes nothing: a race is reported" races "$made/ordering" lost
sed 's/load atomic \(i64, .*\) seq_cst,/load \1,/; s/store atomic \(i64 .*\) seq_cst,/store \1,/' "$made/door.ll" \
    >"$made/plain.ll"
item "a library without atomic loads is instrumented" instrument thread "$made/plain.ll" "$made/plain.o"
item "the test over it is compiled" compile thread bindings/c/test.c "$made/plain.o" "$made/plain"
item "a race is reported of it" races "$made/plain"
if command -v cargo >/dev/null && cargo +nightly --version >/dev/null 2>&1; then
    PARTIAL_DOOR_HEAP=$kit/c/liblibc_c.a
    export PARTIAL_DOOR_HEAP
    item "the tests of the Rust crate (address)" rust address "$made/door_address.o"
else
    echo "skipped: the tests of the Rust crate: there is no nightly cargo"
fi
echo "$passed passed, $failed failed"
[ "$failed" -eq 0 ]
