#!/bin/sh
# slowed.sh [ROUNDS]: times a scan of 4, a read and a mutex's scan of 4 in one thread, in each round beside a loop that
# shows how fast the processor was. There are 20 rounds where no number is given. It wants rt and cargo.
set -eu
cd "$(dirname "$0")/.."
. scripts/need.sh && need rt cargo
made=$(mktemp -d)
trap 'rm -rf "$made"' EXIT
bindings/library.sh >"$made/log" 2>&1 || { cat "$made/log"; exit 1; }
cd benches
CARGO_TARGET_DIR=$made/target cargo run --offline --quiet --release --example slowed "${1:-20}"
