#!/bin/sh
# Installs the header, the library and the pkg-config file `partial_door` for C programs: install.sh [--unproved] [PREFIX]
# Without PREFIX they go below /usr/local. With DESTDIR they go below that folder, as if it were the root of the system.
# The library is the one that bindings/library.sh has proved and built. The one of bindings/library.sh --unproved is
# installed only with --unproved, under its own name.
set -eu
stop() {
    echo "install.sh: $1" >&2
    exit 1
}
top=$(cd "$(dirname "$0")/../.." && pwd)
. "$top/scripts/need.sh" && need rt
name=partial_door
folder=$top/crates/partial_door/out
what='A wait-free, linearizable partial snapshot object'
if [ "${1:-}" = --unproved ]; then
    shift
    name=partial_door_unproved
    folder=$folder/unproved
    what="$what, built with no proof"
fi
[ $# -le 1 ] || stop "usage: install.sh [--unproved] [PREFIX]"
prefix=${1:-/usr/local}
case $prefix in
    -* | *['"$\`']* | *\\*) stop "it can't install below $prefix" ;;
    /*) ;;
    *) prefix=$PWD/$prefix ;;
esac
if [ ! -f "$folder/lib$name.a" ]; then
    [ "$name" = partial_door ] || stop "there is no library without a proof: run bindings/library.sh --unproved"
    [ ! -f "$folder/unproved/libpartial_door_unproved.a" ] || stop "nothing was proved of the library that is there:
run bindings/library.sh, which proves it, or install.sh --unproved, which installs it as it is"
    stop "there is no library: run bindings/library.sh, which proves and builds it"
fi
version=$(sed -n 's/^#define PARTIAL_VERSION "\(.*\)"$/\1/p' "$top/bindings/c/partial.h")
to=${DESTDIR:-}$prefix
mkdir -p "$to/include" "$to/lib/pkgconfig"
cp "$top/bindings/c/partial.h" "$to/include/"
cp "$folder/lib$name.a" "$(dirname "$(rt doc)")/c/liblibc_c.a" "$to/lib/"
cat >"$to/lib/pkgconfig/partial_door.pc" <<END
prefix=$prefix
includedir=\${prefix}/include
libdir=\${prefix}/lib

Name: partial_door
Description: $what
Version: $version
Cflags: -I"\${includedir}"
Libs: -L"\${libdir}" -l$name -llibc_c -pthread
END
