#!/bin/sh
# check.sh [PROGRAM] [ROUNDS]: compares what PROGRAM takes to check a plan with what it takes to replay it, in the
# large plans of the replayer in plain Rust and in three that are slow for a check that walks the history. PROGRAM is
# the proved one, crates/partial/out/partial, where none is named. It wants cargo and Python 3. Where a check isn't
# lawful, or a program fails, the status isn't 0.
set -eu
program=$(realpath "${1:-$(dirname "$0")/../crates/partial/out/partial}")
rounds=${2:-5}
if [ ! -x "$program" ]; then
    echo "check.sh: no program $program" >&2
    exit 2
fi
cd "$(dirname "$0")/replayer"
made=$(mktemp -d)
trap 'rm -rf "$made"' EXIT
CARGO_TARGET_DIR=$made/target
export CARGO_TARGET_DIR
cargo build --release --offline --quiet
for kind in updates scans walk; do
    "$made/target/release/replayer" plan "$kind" >"$made/$kind.plan"
done
cd ..
for kind in unwritten written ports; do
    python3 check.py plan "$kind" >"$made/$kind.plan"
done
python3 check.py compare "$rounds" "$program" "$made/updates.plan" "$made/scans.plan" "$made/walk.plan" \
    "$made/unwritten.plan" "$made/written.plan" "$made/ports.plan"
