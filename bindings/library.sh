#!/bin/sh
# library.sh: proves and builds the static library `partial_door`, into crates/partial_door/out/libpartial_door.a. Where
# `rt ci` has proved the crates below it, and no source is newer, it takes these; else `rt lib` proves them first. It
# wants `rt` on the path.
#
# library.sh --unproved: builds the same sources in about a minute and proves nothing, for who wants to try the library.
# The file is crates/partial_door/out/unproved/libpartial_door_unproved.a. It makes checks that the proved library doesn't
# need, so it is slower.
set -eu
top=$(cd "$(dirname "$0")/.." && pwd)
. "$top/scripts/need.sh" && need rt
. "$top/scripts/fresh.sh"
. "$top/scripts/door.sh"
kit=$(dirname "$(rt doc)")
crate=$top/crates/partial_door
case $* in
    '') ;;
    --unproved)
        need python3
        unproved=$crate/out/unproved/libpartial_door_unproved.a
        "$top/bindings/unproved.py" "$unproved"
        echo "library.sh: nothing was proved of $unproved" >&2
        exit
        ;;
    *)
        echo "usage: bindings/library.sh [--unproved]" >&2
        exit 2
        ;;
esac

# Whether each library below is there, and no source is newer.
are_proved() {
    for library in $(below partial_door | sort -u); do
        made=$top/crates/$library/out/rlib/$library.rlib
        [ -e "$made/format" ] && is_newest "$made" || return
    done
}
if are_proved; then
    build_door "$kit/toolchain" "$crate/out/libpartial_door.a"
else
    cd "$crate" && rt lib
fi
