#!/usr/bin/env bash
# Builds the static library `partial_door` over what `rt ci` proved, and tests the ways to it from C and from Rust.
# With cargo it also builds the library's bitcode, and tests the crate for Rust over that.
# The last line is 'N passed, M failed'. It wants cc and, for the bindings, cargo.
set -u
cd "$(dirname "$0")/.." || exit 2
. scripts/need.sh && need rt "${CC:-cc}"
. tests/count.sh || exit 2
made=$(mktemp -d) || exit 2
trap 'rm -rf "$made"' EXIT
# A program that is compiled so ends at the first report.
sanitized=(-fsanitize=address,undefined -fno-sanitize-recover=all -g)
item() {
    name=$1
    shift
    if "$@" >"$made/log" 2>&1; then
        passed=$((passed + 1))
    else
        failed=$((failed + 1))
        echo "door: failed: $name"
        tail -n 20 "$made/log"
    fi
}
# compile OUT SOURCE [WORD..]: compiles this test in C over the library.
compile() {
    out=$1
    shift
    "${CC:-cc}" -std=c11 -Wall -Wextra -Werror -O1 -I bindings/c "$@" \
        crates/partial_door/out/libpartial_door.a "$heap" -pthread -o "$out"
}
# Whether a sum that overflows ends a program that is compiled with the sanitizers.
ends_at_a_report() {
    echo 'int main(int count, char **words) { return (0x7fffffff + count) * (words == 0); }' >"$made/overflow.c" &&
        "${CC:-cc}" "${sanitized[@]}" "$made/overflow.c" -o "$made/overflow" && ! "$made/overflow"
}
# Whether the C compiler has a thread sanitizer that runs here, where threads run side by side.
has_thread_sanitizer() {
    [ "$(nproc)" -gt 1 ] && command -v objcopy &&
        echo 'int main(void) { return 0; }' >"$made/empty.c" &&
        "${CC:-cc}" -fsanitize=thread "$made/empty.c" -o "$made/empty" && "$made/empty"
}
build_bitcode() {
    bindings/bitcode.sh "$made/bitcode/libpartial_door.a" >"$made/flags"
}
# example NAME [WORD..]: whether this example of the crate for Rust runs to its end with these words.
example() {
    name=$1
    shift
    (cd bindings/rust && cargo run --offline --quiet --release --example "$name" -- "$@")
}
# Whether the calls by keys have the machine code of the calls by indices and one comparison.
same_code() {
    cargo test --offline --quiet --release --lib --manifest-path bindings/rust/Cargo.toml \
        --config "target.'cfg(unix)'.runner = ['$PWD/tests/same_code.py']"
}
# Whether so many threads soak a memory for a second without a fault, and their first calls are linearizable. With 64 of
# them scans announce themselves, with 200 none does.
soak() {
    example soak "$1" 1 512 "$made/history" && python3 tests/judge_times.py <"$made/history"
}
# Whether the program of these tests has a function of the library for scans, and none for reads.
calls_no_read() {
    cat "$made"/bitcode/target/release/deps/openings-* >"$made/program" &&
        grep -q partial_door_opening_scan "$made/program" && ! grep -q partial_door_opening_read "$made/program"
}
# Whether the crate is checked and documented without the library, and a build that needs it says what to run.
without_library() {
    rm -rf "$made/alone" && cp -r bindings/rust "$made/alone" &&
        (cd "$made/alone" && cargo check --offline 2>"$made/said" && cargo doc --no-deps --offline &&
            ! cargo build --offline 2>"$made/failed") &&
        grep -q '^warning: partial-door.*run bindings/library.sh' "$made/said" &&
        grep -q '^error: could not find native static library.*run bindings/library.sh' "$made/failed"
}
# Whether a program that takes the crate from a git repository, where the library isn't built, gets one line that says
# what to run, and none once the library is there.
as_git_dependency() {
    rm -rf "$made/git" "$made/user" && mkdir -p "$made/git/bindings" "$made/user/src" "$made/cargo" &&
        cp -r bindings/rust bindings/library.sh "$made/git/bindings" && rm -rf "$made/git/bindings/rust/target" &&
        (cd "$made/git" && git init -q && git add . && git -c user.name=a -c user.email=a@b commit -qm a) &&
        echo 'fn main() { partial_door::Memory::new(&[1]).unwrap(); }' >"$made/user/src/main.rs" &&
        printf '[package]\nname = "user"\nedition = "2021"\n[dependencies]\npartial-door = { git = "file://%s" }\n' \
            "$made/git" >"$made/user/Cargo.toml" &&
        (cd "$made/user" && export CARGO_HOME="$made/cargo" && ! cargo build 2>"$made/failed" &&
            grep -q '^error: could not find native static library.*run /.*/bindings/library.sh)' "$made/failed" &&
            PARTIAL_DOOR_LIB="$library" cargo run)
}
# Whether the crate isn't built for a target that the library isn't of, and the text says why. The feature `plain` isn't
# refused: where rustc has no std for the target, the build ends with that.
other_target() {
    (cd bindings/rust && ! cargo check --offline --target aarch64-unknown-linux-gnu 2>"$made/said") &&
        grep -q 'the library is built for x86-64 Linux, and the target is aarch64' "$made/said" &&
        { (cd bindings/rust && cargo check --offline --features plain --target aarch64-unknown-linux-gnu 2>"$made/said") ||
            grep -q "can't find crate for .std." "$made/said"; }
}
# Whether the crate's tests pass over plain Rust, where there is no library and no kit, and its page says first of all that
# nothing is proved.
over_plain_rust() {
    rm -rf "$made/alone" && cp -r bindings/rust "$made/alone" &&
        (cd "$made/alone" && unset PARTIAL_DOOR_HEAP && cargo test --offline --quiet --features plain &&
            cargo doc --offline --quiet --no-deps --features plain) &&
        grep -q '<meta name="description" content="Not proved: ' "$CARGO_TARGET_DIR/doc/partial_door/index.html"
}
# refuses VALUE TEXT: the crate isn't built where PARTIAL_DOOR_LIB has this value, and the text says why.
refuses() {
    (cd bindings/rust && ! PARTIAL_DOOR_LIB=$1 cargo check --offline 2>"$made/said") && grep -qF "$2" "$made/said"
}
# Whether a relative path is one of the folder in which cargo is called.
relative_library() {
    (cd crates && PARTIAL_DOOR_LIB=partial_door/out/libpartial_door.a \
        cargo test --offline --quiet --manifest-path ../bindings/rust/Cargo.toml --test openings)
}
# Whether the C test is compiled and linked with what pkg-config says of the installed library, of this version.
installed() {
    bindings/c/install.sh "$made/prefix" && PKG_CONFIG_PATH=$made/prefix/lib/pkgconfig && export PKG_CONFIG_PATH &&
        grep -q "^#define PARTIAL_VERSION \"$(pkg-config --modversion partial_door)\"$" bindings/c/partial.h &&
        "${CC:-cc}" -std=c11 -O1 bindings/c/test.c $(pkg-config --cflags --libs partial_door) -o "$made/test_installed"
}
kit=$(dirname "$(rt doc)")
heap=$kit/c/liblibc_c.a
library=$PWD/crates/partial_door/out/libpartial_door.a
item "the static library is proved and built" bindings/library.sh
item "the C test is compiled" compile "$made/test" bindings/c/test.c
count_as "the C test" "$made/test"
if command -v pkg-config >/dev/null 2>&1; then
    item "the C test is linked with the installed library" installed
    count_as "the C test with the installed library" "$made/test_installed"
else
    echo "door: skipped: the installed library: there is no pkg-config"
fi
item "the C test of memories is compiled" compile "$made/memory_test" bindings/c/memory_test.c bindings/c/elsewhere.c
count_as "the C test of memories" "$made/memory_test"
item "the header is one of C++ too" sh -c 'echo "#include \"partial.h\"" |
    "${CXX:-c++}" -std=c++17 -Wall -Wextra -Werror -I bindings/c -xc++ -fsyntax-only -'
item "a report of a sanitizer ends a program" ends_at_a_report
item "the C test is compiled with the address sanitizer" compile "$made/test_address" bindings/c/test.c \
    "${sanitized[@]}"
count_as "the C test with the address sanitizer" "$made/test_address"
item "the C test of memories is compiled with the address sanitizer" compile "$made/memory_address" \
    bindings/c/memory_test.c bindings/c/elsewhere.c "${sanitized[@]}"
count_as "the C test of memories with the address sanitizer" "$made/memory_address"
item "the example in C is compiled" compile "$made/producers" bindings/c/examples/producers.c
item "the example in C" "$made/producers" 400000
item "the test of refused growths is compiled" compile "$made/growths" bindings/c/growths.c
count_as "the test of refused growths" "$made/growths"
if has_thread_sanitizer >/dev/null 2>&1; then
    item "what an update publishes" tests/ordering.sh
else
    echo "door: skipped: what an update publishes: there is no thread sanitizer, no objcopy or one processor"
fi
item "the header from outside" tests/header.sh "$library"
item "the library with no proof" tests/unproved.sh
if command -v cargo >/dev/null 2>&1; then
    PARTIAL_DOOR_HEAP=$heap
    export PARTIAL_DOOR_HEAP
    CARGO_TARGET_DIR=$made/target
    export CARGO_TARGET_DIR
    item "the tests and examples of the Rust binding" sh -c 'cd bindings/rust && cargo test --offline --quiet'
    if command -v objdump >/dev/null 2>&1; then
        count_as "the machine code of the calls by keys" same_code
    else
        echo "door: skipped: the machine code of the calls by keys: there is no objdump"
    fi
    item "the example flags.rs" example flags 400000
    item "the example monitor.rs" example monitor 400000
    item "the example scheduler.rs" example scheduler 100000
    item "the soak" soak 64
    item "the soak without announcements" soak 200
    item "the programs of docs/start.md" tests/start.py
    item "the tests of the Rust binding over plain Rust" over_plain_rust
    item "the Rust binding without the library" without_library
    if command -v git >/dev/null 2>&1; then
        item "the Rust binding as a git dependency" as_git_dependency
    else
        echo "door: skipped: the Rust binding as a git dependency: there is no git"
    fi
    item "the Rust binding for another target" other_target
    item "a library of another name is refused" refuses "$PWD/other.a" \
        "PARTIAL_DOOR_LIB has to name a file libpartial_door.a or libpartial_door_unproved.a, and names $PWD/other.a"
    item "a library that isn't there is refused" refuses "$made/libpartial_door.a" \
        "PARTIAL_DOOR_LIB names $made/libpartial_door.a: No such file"
    item "a relative path of the library" relative_library
    for tool in fmt clippy; do
        cargo "$tool" --version >/dev/null 2>&1 || echo "door: skipped: there is no cargo $tool"
    done
    if cargo clippy --version >/dev/null 2>&1; then
        item "the lints of the Rust binding" sh -c 'cd bindings/rust && cargo clippy --offline --quiet --all-targets -- -D warnings'
        item "the lints of the Rust binding over plain Rust" sh -c 'cd bindings/rust &&
            cargo clippy --offline --quiet --all-targets --features plain -- -D warnings'
    fi
    if cargo fmt --version >/dev/null 2>&1; then
        item "the layout of the Rust binding" sh -c 'cd bindings/rust && cargo fmt --check'
    fi
    item "the library is proved and built as bitcode" build_bitcode
    PARTIAL_DOOR_LIB=$made/bitcode/libpartial_door.a
    RUSTFLAGS=$(cat "$made/flags")
    RUSTDOCFLAGS=$RUSTFLAGS
    CARGO_TARGET_DIR=$made/bitcode/target
    export PARTIAL_DOOR_LIB RUSTFLAGS RUSTDOCFLAGS CARGO_TARGET_DIR
    item "the tests and examples of the Rust binding over the bitcode" sh -c 'cd bindings/rust &&
        cargo test --offline --quiet --release'
    item "no read is a call over the bitcode" calls_no_read
fi
echo "$passed passed, $failed failed"
[ "$failed" -eq 0 ]
