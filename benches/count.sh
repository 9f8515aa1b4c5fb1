#!/bin/sh
# count.sh: counts the instructions of one call of a port alone, with callgrind: of an update of a single opening and of the
# same algorithm in plain Rust, and of each call of an opening and of a long-lived memory, with its changes of
# epoch, by indices and by keys; over the static library, and over its bitcode. Of updates and reads it counts the locked
# instructions too: each is a step that a processor makes alone. It wants rt, cargo, python3, valgrind, objdump and nm.
set -eu
cd "$(dirname "$0")/.."
. scripts/need.sh && need rt cargo python3 valgrind objdump nm
made=$(mktemp -d)
trap 'rm -rf "$made"' EXIT
# counted PROGRAM KIND CALLS: the instructions of the program with these words.
counted() {
    valgrind --tool=callgrind --callgrind-out-file=/dev/null "$1" "$2" "$3" 2>&1 | sed -n 's/.*refs: *//p' | tr -d ,
}
# row NAME PROGRAM KIND: the difference of two runs, for each of the calls between.
row() {
    few=$(counted "$2" "$3" 10000)
    many=$(counted "$2" "$3" 60000)
    echo "$1: $(((many - few) / 50000))"
}
# locked NAME PROGRAM KIND: the same of locked instructions, to the nearest number.
locked() {
    few=$(benches/locked.py "$2" "$3" 10000)
    many=$(benches/locked.py "$2" "$3" 60000)
    echo "locked instructions, $1: $(((many - few + 25000) / 50000))"
}
# rows NAME PROGRAM: each call of an opening, and of a long-lived memory.
rows() {
    row "update of an opening, $1" "$2" proved
    row "read of an opening, $1" "$2" opening_read
    row "scan of 4 of an opening, $1" "$2" opening_scan
    row "update, $1" "$2" update
    row "read, $1" "$2" read
    row "scan of 4, $1" "$2" scan
    row "scan of 16, $1" "$2" scan_of_16
    row "update by a key, $1" "$2" set
    row "read by a key, $1" "$2" get
    row "scan of 4 by keys, $1" "$2" snapshot
    locked "update of an opening, $1" "$2" proved
    locked "update, $1" "$2" update
    locked "read, $1" "$2" read
}
bindings/library.sh >"$made/log" 2>&1 || { cat "$made/log"; exit 1; }
build() {
    (cd benches && CARGO_TARGET_DIR=$made/$1 cargo build --offline --quiet --release --example count)
}
build static
row "update in plain Rust" "$made/static/release/examples/count" plain
rows "static library" "$made/static/release/examples/count"
RUSTFLAGS=$(bindings/bitcode.sh "$made/bitcode/libpartial_door.a" 2>"$made/log") || { cat "$made/log"; exit 1; }
PARTIAL_DOOR_LIB=$made/bitcode/libpartial_door.a
export RUSTFLAGS PARTIAL_DOOR_LIB
build bitcode_target
row "update in plain Rust, with the flags of the bitcode" "$made/bitcode_target/release/examples/count" plain
rows "bitcode" "$made/bitcode_target/release/examples/count"
