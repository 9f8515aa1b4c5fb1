#!/bin/sh
# Builds the library with no proof, and tests it from C and, where there is cargo, from Rust: that it does what the proved
# one does, says that nothing was proved, and is taken by nobody who hasn't asked for it. It ends with the first fault.
set -eu
cd "$(dirname "$0")/.."
. scripts/need.sh && need rt "${CC:-cc}"
made=$(mktemp -d)
trap 'rm -rf "$made"' EXIT
top=$PWD
library=$top/crates/partial_door/out/unproved/libpartial_door_unproved.a
heap=$(dirname "$(rt doc)")/c/liblibc_c.a
# has NAME COMMAND..: ends with the name and what the command has said, where the command fails.
has() {
    name=$1
    shift
    "$@" >"$made/log" 2>&1 && return
    tail -n 20 "$made/log"
    echo "unproved: failed: $name"
    exit 1
}
says_so() {
    bindings/library.sh --unproved 2>"$made/said" && grep -qF "nothing was proved of $library" "$made/said"
}
# Whether the symbol by which it differs from the proved library is in the one and not in the other.
is_marked() {
    grep -q partial_door_unproved "$library" &&
        { [ ! -f crates/partial_door/out/libpartial_door.a ] ||
            ! grep -q partial_door_unproved crates/partial_door/out/libpartial_door.a; }
}
# run_c TEST: compiles this test over the library, and runs it.
run_c() {
    "${CC:-cc}" -std=c11 -O1 -I bindings/c "bindings/c/$1.c" bindings/c/elsewhere.c "$library" "$heap" -pthread \
        -o "$made/$1" && "$made/$1"
}
# A folder as the repository is when bindings/library.sh has proved nothing yet.
without_proof() {
    mkdir -p "$made/top/crates/partial_door/out/unproved" && cp -r bindings scripts "$made/top" &&
        cp "$library" "$made/top/crates/partial_door/out/unproved"
}
# refuses TEXT WORD..: whether this call of install.sh is refused with the text, and installs nothing.
refuses() {
    text=$1
    shift
    ! "$made/top/bindings/c/install.sh" "$@" 2>"$made/said" && grep -qF "$text" "$made/said" && [ ! -e "$made/refused" ]
}
installs() {
    staged=$made/staged
    "$made/top/bindings/c/install.sh" --unproved "$made/pre fix" && DESTDIR="$made/root" \
        "$made/top/bindings/c/install.sh" --unproved "$staged" && [ ! -e "$staged" ] &&
        [ -f "$made/root$staged/lib/libpartial_door_unproved.a" ] &&
        [ ! -e "$made/root$staged/lib/libpartial_door.a" ] &&
        grep -qxF "prefix=$staged" "$made/root$staged/lib/pkgconfig/partial_door.pc"
}
links_installed() {
    words=$(PKG_CONFIG_PATH="$made/pre fix/lib/pkgconfig" pkg-config --cflags --libs partial_door) &&
        eval "\"\${CC:-cc}\" -std=c11 -O1 bindings/c/test.c $words -o '$made/installed'" && "$made/installed"
}
test_rust() {
    (cd bindings/rust && PARTIAL_DOOR_LIB=$library PARTIAL_DOOR_HEAP=$heap CARGO_TARGET_DIR=$made/target \
        cargo test --offline --test memories 2>"$made/said") &&
        grep -qF "nothing was proved of $library" "$made/said"
}
# Whether a crate of another version than the library makes no memory, and says why.
other_version() {
    cp -r bindings/rust "$made/other" && sed 's/^version = "0\./version = "7./' "$made/other/Cargo.toml" >"$made/Cargo.toml" &&
        ! cmp -s "$made/Cargo.toml" "$made/other/Cargo.toml" && mv "$made/Cargo.toml" "$made/other/Cargo.toml" &&
        (cd "$made/other" && ! PARTIAL_DOOR_LIB=$library PARTIAL_DOOR_HEAP=$heap CARGO_TARGET_DIR=$made/target \
            cargo run --offline --quiet --example flags 4 2>"$made/said") && grep -q OtherVersion "$made/said"
}

has "the library says that nothing was proved" says_so
has "the library is marked" is_marked
has "the C test" run_c test
has "the C test of memories" run_c memory_test
has "the test of refused growths" run_c growths
has "the header" tests/header.sh "$library"
has "a tree without a proved library" without_proof
has "it isn't installed unless asked for" refuses "nothing was proved of the library" "$made/refused"
has "a prefix that a pkg-config file can't hold" refuses "it can't install below" --unproved "$made/refused\"/.."
has "it is installed when asked for" installs
if command -v pkg-config >/dev/null 2>&1; then
    has "the C test is linked with what pkg-config says" links_installed
fi
if command -v cargo >/dev/null 2>&1; then
    has "the tests of the crate for Rust" test_rust
    has "a crate of another version" other_version
fi
