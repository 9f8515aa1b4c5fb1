#!/bin/sh
# bitcode.sh [OUT]: builds the proved static library `partial_door` as bitcode of LLVM, into OUT or into
# crates/partial_door/out/bitcode/libpartial_door.a. The linker of a Rust program then generates the door's code, and
# can inline that of a call (docs/using/c-and-rust.md). What it writes to standard output is one line, the words for
# RUSTFLAGS to link so.
#
# It wants `rt` on the path. library.sh proves and builds all, with the kit's toolchain. Then the last step is made once
# more: `rattle build`, which builds nothing but what is proved, with a toolchain in which `clang` is the kit's own and
# writes bitcode.
set -eu
stop() {
    echo "bitcode.sh: $1" >&2
    exit 1
}
[ $# -le 1 ] || stop "it takes one word, the library to write"
out=${1:-}
case $out in
    '' | /*) ;;
    *) out=$PWD/$out ;;
esac
top=$(cd "$(dirname "$0")/.." && pwd)
crate=$top/crates/partial_door
out=${out:-$crate/out/bitcode/libpartial_door.a}
. "$top/scripts/need.sh" && need rt
. "$top/scripts/door.sh"
kit=$(dirname "$(rt doc)")
for part in bin/rattle toolchain/bin/clang toolchain/bin/llvm-ar toolchain/lib rlibs logic_built \
    rattle/logic/antt-project.json; do
    [ -e "$kit/$part" ] || stop "the kit has no $part"
done
"$top/bindings/library.sh" >&2 || stop "library.sh has failed"

# The toolchain. Its parts are called with no environment, so these paths stand in it. It keeps the words of the call.
made=$(mktemp -d)
trap 'rm -rf "$made"' EXIT
mkdir "$made/bin"
ln -s "$kit/toolchain/lib" "$made/lib"
ln -s "$kit"/toolchain/bin/* "$made/bin"
rm "$made/bin/clang"
cat >"$made/bin/clang" <<END
#!/bin/sh
printf '%s\n' "\$@" >"$made/words"
exec "$kit/toolchain/bin/clang" -flto=thin "\$@"
END
chmod +x "$made/bin/clang"

build_door "$made" "$out" >"$made/said" 2>&1 || {
    cat "$made/said" >&2
    stop "rattle build has failed"
}

# Bitcode begins with these two letters. The last line of a build names the processor that the code is for.
[ -s "$made/words" ] || stop "rattle build has not called the toolchain's clang"
[ "$("$kit/toolchain/bin/llvm-ar" p "$out" | head -c 2)" = BC ] || stop "$out has no bitcode"
cpu=$(sed -n 's/^logic=proved .*cpu=\([^ ]*\).*/\1/p' "$made/said")
[ -n "$cpu" ] || stop "rattle build names no cpu"
flags="-Clinker-plugin-lto -Ctarget-cpu=$cpu"
# What the kit asks of LLVM where code is generated, which the linker does now.
for option in $(sed -n '/^-mllvm$/{n;p;}' "$made/words"); do
    flags="$flags -Clink-arg=-Wl,-mllvm,$option"
done
echo "$flags"
