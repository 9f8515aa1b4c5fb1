# For scripts that set `top` to the folder of the repository.

# is_newest FILE: whether no source of the crates is newer than this file, which is there.
is_newest() {
    newer=$(find "$top/crates" "$top/crates.txt" -name out -prune -o -type f -newer "$1" -print -quit) && [ -z "$newer" ]
}

# is_fresh FILE: whether this built program is there, and no source of the crates is newer.
is_fresh() {
    [ -x "$1" ] && is_newest "$1"
}
