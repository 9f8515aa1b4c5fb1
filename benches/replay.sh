#!/bin/sh
# replay.sh [PROGRAM] [ROUNDS]: builds and tests the replayer in plain Rust, lets it make large plans, and
# compares PROGRAM with it on each: the bytes that they write, and the processor time that they take, the least
# of so many rounds. PROGRAM is the proved one, crates/partial/out/partial, where none is named. It wants cargo
# and Python 3. Where bytes differ, or a program fails, the status isn't 0.
set -eu
program=$(realpath "${1:-$(dirname "$0")/../crates/partial/out/partial}")
rounds=${2:-15}
if [ ! -x "$program" ]; then
    echo "replay.sh: no program $program" >&2
    exit 2
fi
cd "$(dirname "$0")/replayer"
made=$(mktemp -d)
trap 'rm -rf "$made"' EXIT
CARGO_TARGET_DIR=$made/target
export CARGO_TARGET_DIR
cargo build --release --offline --quiet
cargo test --release --offline --quiet >"$made/tests" 2>&1 || {
    cat "$made/tests"
    exit 1
}
replayer=$made/target/release/replayer
for kind in updates scans walk; do
    "$replayer" plan "$kind" >"$made/$kind.plan"
done
python3 ../replay.py "$rounds" "$program" "$replayer" "$made/updates.plan" "$made/scans.plan" "$made/walk.plan"
