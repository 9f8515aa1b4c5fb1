#!/bin/sh
# Builds the program over the proved library twice, linked with the library and linked with its bitcode. Tests both,
# runs them one after the other, and writes docs/benches.md, docs/benches.svg and benches/tables.md.
# It wants `rt` on the path, cargo and Python 3. bindings/bitcode.sh proves and builds both libraries.
set -eu
cd "$(dirname "$0")/.."
. scripts/need.sh && need rt cargo python3
made=$(mktemp -d)
trap 'rm -rf "$made"' EXIT
PARTIAL_DOOR_HEAP=$(dirname "$(rt doc)")/c/liblibc_c.a
export PARTIAL_DOOR_HEAP
# The time that the host took from the processors so far, and all their time.
stolen() {
    awk '$1 == "cpu" { for (k = 2; k <= 9; k++) all += $k; print $9, all }' /proc/stat
}
load() {
    cut -d ' ' -f 1 /proc/loadavg
}
# build NAME LIBRARY FLAGS: builds the program over this library, and tests it.
build() (
    CARGO_TARGET_DIR=$made/$1
    PARTIAL_DOOR_LIB=$2
    RUSTFLAGS=$3
    export CARGO_TARGET_DIR PARTIAL_DOOR_LIB RUSTFLAGS
    cd benches
    cargo build --release --offline --quiet
    cargo test --release --offline --quiet >"$made/tests" 2>&1 || {
        cat "$made/tests"
        exit 1
    }
)
# measure NAME: runs the program of this name, and writes its tables and what they were measured on. Each memory is a block
# of the system, as the first one of a program is, also where one was closed before.
measure() {
    load_before=$(load)
    stolen_before=$(stolen)
    MALLOC_MMAP_THRESHOLD_=131072 "$made/$1/release/partial-benches"
    part=$(echo "$stolen_before $(stolen)" | awk '{ printf "%.1f", 100 * ($3 - $1) / ($4 - $2) }')
    printf '\nMeasured on %s processors (%s), with a load of %s when it began and %s by the end. ' "$(nproc)" \
        "$(sed -n 's/^model name[^:]*: //p' /proc/cpuinfo | head -n 1)" "$load_before" "$(load)"
    printf 'The host took %s %% of the processors'"'"' time meanwhile.\n' "$part"
}
flags=$(bindings/bitcode.sh "$made/libpartial_door.a" 2>"$made/said") || {
    cat "$made/said"
    exit 1
}
build library "$PWD/crates/partial_door/out/libpartial_door.a" ""
build bitcode "$made/libpartial_door.a" "$flags"
measure library >"$made/library.md"
measure bitcode >"$made/bitcode.md"
# The page has the first table, that of sizes and that of scans of all components, and what is said of all of them.
{
    cat benches/head.md
    printf '\n## The table\n\n'
    printf '![The rows in nanoseconds as bars, on a logarithmic scale](benches.svg)\n\n'
    sed '/^$/q' "$made/library.md"
    grep '^Left out' "$made/library.md"
    printf '\n## Sizes of the memory\n\n'
    sed -n '/^An update of the long-lived memory/,$p' "$made/library.md" | sed '/^A scan of all components/,$d'
    printf '## Scans of all components\n\n'
    printf 'By one thread beside 3 writers, in sizes where a disturbed scan announces itself, and in others, where it\n'
    printf '[changes the epoch](using/long-lived-memory.md#scans-that-dont-announce-themselves).\n\n'
    sed -n '/^A scan of all components beside 3 writers/,$p' "$made/library.md"
} >docs/benches.md
# The words before the tables stay as they are.
{
    sed '/^## /,$d' benches/tables.md
    printf '## Linked with the library\n\n'
    cat "$made/library.md"
    printf '\n## Linked with its bitcode\n\n'
    cat "$made/bitcode.md"
} >"$made/tables.md"
mv "$made/tables.md" benches/tables.md
python3 benches/plot.py <docs/benches.md >docs/benches.svg
