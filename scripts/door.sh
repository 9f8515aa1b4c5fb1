# For scripts that set `top` to the folder of the repository, `kit` to that of the kit, and `crate` to that of
# partial_door.

# libraries NAME: those that the crate names in crates.txt. below NAME: those of the repository, down to the last.
libraries() {
    sed -n "s/^$1\( staticlib\)\{0,1\}://p" "$top/crates.txt"
}
below() {
    for library in $(libraries "$1"); do
        if [ -d "$top/crates/$library" ]; then
            echo "$library"
            below "$library"
        fi
    done
}

# build_door TOOLCHAIN OUT: proves partial_door over the proved libraries of its crates, and builds the static library
# with this toolchain: the last step of `rt lib`, in its words.
build_door() {
    toolchain=$1
    out=$2
    set -- --extern "std=$kit/rlibs/std.rlib" -L "dependency=$kit/rlibs"
    for library in $(libraries partial_door); do
        if [ -d "$top/crates/$library" ]; then
            set -- "$@" --extern "$library=$top/crates/$library/out/rlib/$library.rlib"
        else
            set -- "$@" --extern "$library=$kit/rlibs/$library.rlib"
        fi
    done
    for library in $(below partial_door | sort -u); do
        set -- "$@" -L "dependency=$top/crates/$library/out/rlib"
    done
    mkdir -p "$(dirname "$out")"
    (cd "$crate" && "$kit/bin/rattle" build --crate-name partial_door src/lib.rt "$@" \
        --antt-project "$kit/rattle/logic/antt-project.json" --logic-built "$kit/logic_built" --jobs 4 \
        --links partial_door= --crate-type staticlib --toolchain "$toolchain" --backend llvm \
        --incremental out/incremental -o "$out")
}
