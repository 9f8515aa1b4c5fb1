#!/bin/sh
# Tests the header from outside the tests in C: header.sh LIBRARY. No compiler warns of it, in C from 1999 and in C++ from
# 1998 on; a program in C++ runs; a header of another version opens no memory; and the example is built by CMake with what
# install.sh has installed, where there is CMake. It ends with the first fault.
set -eu
cd "$(dirname "$0")/.."
. scripts/need.sh && need rt "${CC:-cc}"
library=$1
made=$(mktemp -d)
trap 'rm -rf "$made"' EXIT
heap=$(dirname "$(rt doc)")/c/liblibc_c.a
stop() {
    [ ! -s "$made/said" ] || tail -n 20 "$made/said"
    echo "header: failed: $1"
    exit 1
}
warnings='-Wall -Wextra -Wpedantic -Wconversion -Wsign-conversion -Wshadow -Wcast-qual -Werror'

cat >"$made/in_c.c" <<'END'
#include "partial.h"
int main(void)
{
    partial_memory memory = PARTIAL_EMPTY;
    return (int)partial_memory_free(&memory);
}
END
cat >"$made/in_cpp.cpp" <<'END'
#include "partial.h"
int main()
{
    const uint64_t initial[2] = {5, 6};
    partial_memory memory = PARTIAL_EMPTY;
    partial_port port = PARTIAL_EMPTY;
    partial_update_answer answer;
    uint64_t values[2];
    return partial_memory_new(initial, 2, 1, &memory) != PARTIAL_FINE
        || partial_memory_take_port(&memory, &port) != PARTIAL_FINE
        || partial_port_update(&port, 1, 7, &answer) != PARTIAL_FINE
        || partial_memory_give_port(&memory, &port) != PARTIAL_FINE
        || partial_memory_close(&memory, values, 2) != PARTIAL_FINE
        || values[0] != 5 || values[1] != 7 || partial_text(PARTIAL_NULL)[0] != 'a';
}
END
cat >"$made/other.c" <<'END'
#include "partial.h"
int main(void)
{
    const uint64_t initial[1] = {5};
    const partial_sizes sizes = {10, 0, 100};
    partial_memory memory = PARTIAL_EMPTY;
    partial_handle opening = PARTIAL_EMPTY;
    partial_handle closed = PARTIAL_EMPTY;
    return partial_memory_new(initial, 1, 1, &memory) != PARTIAL_OTHER_VERSION || memory.held
        || partial_opening_open(initial, 1, &sizes, 1, &opening) != PARTIAL_OTHER_VERSION || opening.held
        || partial_opening_reopen(&closed, 1, &sizes, 1, &opening) != PARTIAL_OTHER_VERSION || opening.held;
}
END
# takes COMPILER STANDARD: whether this compiler knows the standard.
takes() {
    printf 'int main(void) { return 0; }\n' >"$made/empty.$3" &&
        "$1" -std="$2" -fsyntax-only "$made/empty.$3" >/dev/null 2>&1
}
known=0
for standard in c99 c11 c17 c2x c23; do
    takes "${CC:-cc}" "$standard" c || continue
    known=$((known + 1))
    "${CC:-cc}" -std="$standard" $warnings -Wc++-compat -I bindings/c -fsyntax-only "$made/in_c.c" >"$made/said" 2>&1 ||
        stop "a warning in $standard"
done
[ "$known" -gt 0 ] || stop "the compiler knows no standard of C"
if command -v "${CXX:-c++}" >/dev/null 2>&1; then
    known=0
    for standard in c++98 c++11 c++14 c++17 c++20 c++23; do
        takes "${CXX:-c++}" "$standard" cpp || continue
        known=$((known + 1))
        "${CXX:-c++}" -std="$standard" $warnings -Wold-style-cast -Wzero-as-null-pointer-constant -I bindings/c \
            "$made/in_cpp.cpp" "$library" "$heap" -pthread -o "$made/in_cpp" >"$made/said" 2>&1 ||
            stop "a warning in $standard"
        "$made/in_cpp" || stop "the program in $standard"
    done
    [ "$known" -gt 0 ] || stop "the compiler knows no standard of C++"
else
    echo "header: skipped: C++: there is no compiler"
fi

mkdir "$made/other" && sed 's/^#define PARTIAL_VERSION_NUMBER .*/#define PARTIAL_VERSION_NUMBER 999999999u/' \
    bindings/c/partial.h >"$made/other/partial.h"
"${CC:-cc}" -std=c11 -I "$made/other" "$made/other.c" "$library" "$heap" -pthread -o "$made/other/program" &&
    "$made/other/program" || stop "a header of another version opens a memory"

if command -v cmake >/dev/null 2>&1 && command -v pkg-config >/dev/null 2>&1; then
    words=
    case $library in
        *_unproved.a) words=--unproved ;;
    esac
    bindings/c/install.sh $words "$made/pre fix"
    PKG_CONFIG_PATH="$made/pre fix/lib/pkgconfig" cmake -S bindings/c/examples -B "$made/build" >"$made/said" 2>&1 &&
        cmake --build "$made/build" >"$made/said" 2>&1 && "$made/build/producers" 100000 >"$made/said" 2>&1 ||
        stop "the example with CMake"
else
    echo "header: skipped: the example with CMake: there is no CMake or no pkg-config"
fi
