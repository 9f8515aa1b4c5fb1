#!/usr/bin/env bash
# launch.sh NAME WORD..: runs the program NAME, which is partial, picture or pipeline, with these words.
# It takes the proved program that an earlier build left, when no source is newer. Without one it takes a program that
# is built from the sources with no proof, says so on standard error, and keeps it for later runs.
set -u

top=$(cd "$(dirname "${BASH_SOURCE[0]}")/.." && pwd) || exit 2
. "$top/scripts/fresh.sh" || exit 2
. "$top/scripts/need.sh" || exit 2
. "$top/scripts/door.sh" || exit 2
. "$top/scripts/unproved.sh" || exit 2
name=$1
proved=$top/crates/$name/out/$name
shift

# own_folder: where the unproved program is kept: beside the proved one, or, when the user can't write there, in a folder
# of the user's that has the number of this clone's path.
own_folder() {
    local folder=$top/crates/$name/out
    if ! { mkdir -p "$folder" && [ -w "$folder" ]; } 2>/dev/null; then
        folder=${XDG_CACHE_HOME:-${HOME:-/tmp}/.cache}/yuthgaren/$(cksum <<<"$top" | cut -d ' ' -f 1)
        if ! { mkdir -p "$folder" && [ -w "$folder" ]; } 2>/dev/null; then
            echo "$name: neither $top nor $folder can be written: let XDG_CACHE_HOME name a folder that can" >&2
            return 1
        fi
    fi
    echo "$folder"
}

# show_seconds: says on a terminal, each second, for how long the build goes on.
show_seconds() {
    local seconds
    [ -t 2 ] || return
    for ((seconds = 1; ; seconds++)); do
        sleep 1
        printf '\rbuilding: %d s ' "$seconds" >&2
    done
}

# build_into FOLDER: builds the program with no proof and keeps it there. The words of the build are shown if it fails.
build_into() (
    place=$(rt doc 2>&1) || { echo "$place" >&2; exit 1; }
    kit=$(dirname "$place")
    room=$(mktemp -d) || exit 1
    # Sources that change from here on are newer than what is kept.
    touch "$room/start" || exit 1
    show_seconds &
    shown=$!
    trap 'kill "$shown" 2>/dev/null; rm -rf "$room"' EXIT
    trap 'exit 130' INT TERM HUP
    build_unproved "$name" kept "$room" >"$room/said" 2>&1
    status=$?
    kill "$shown" 2>/dev/null && wait "$shown" 2>/dev/null
    [ ! -t 2 ] || printf '\r%20s\r' '' >&2
    if [ "$status" -ne 0 ]; then
        cat "$room/said" >&2
        exit 1
    fi
    touch -r "$room/start" "$room/kept" && cp -p "$room/kept" "$1/$name.new" && mv "$1/$name.new" "$1/${name}_unproved"
)

# bound_memory MIB: bounds what the program may take, unless the caller has set a lower bound. A replay keeps each step
# that it makes, so a plan can ask for more memory than there is. At the bound the program refuses it (6), where the
# system would end the program.
bound_memory() {
    local now
    if ! [[ $1 =~ ^[1-9][0-9]{0,8}$ ]]; then
        echo "$name: REPLAY_MEMORY takes a number of MiB" >&2
        exit 2
    fi
    now=$(ulimit -v)
    if [ "$now" = unlimited ] || [ "$now" -gt $(($1 * 1024)) ]; then
        ulimit -v $(($1 * 1024))
    fi
}

program=$proved
if ! is_fresh "$proved"; then
    echo "This run is of the sources, with no proof: no proved program is there." >&2
    folder=$(own_folder) || exit 2
    program=$folder/${name}_unproved
    if ! is_fresh "$program"; then
        need rt
        echo "It is built first, which takes a minute or two." >&2
        build_into "$folder" || exit 2
    fi
fi
# A program can't ask a terminal for its size, so its environment names it.
if [ "$name" = pipeline ] && [ -t 1 ]; then
    { size=$(stty size <&3 2>/dev/null) && export LINES=${size% *} COLUMNS=${size#* }; } 3>&1
fi
# Threads take room for addresses that they don't use, so what runs in threads isn't bounded.
case $name-${1:-} in
    partial-run | pipeline-*) ;;
    *) bound_memory "${REPLAY_MEMORY:-4096}" ;;
esac
exec -a "$name" "$program" "$@"
