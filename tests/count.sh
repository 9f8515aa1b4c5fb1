# For the scripts that add up the parts of a gate: `passed` and `failed` are their counts.
passed=0
failed=0

# add_counts NAME STATUS FILE: adds what the last line of this output counts. A part without such a line has failed
# once. So has one that counts no failure, and still ended with another status than 0, or passed nothing.
add_counts() {
    local name=$1 status=$2 here there
    if ! [[ $(tail -n 1 "$3") =~ ^([0-9]+)\ passed,\ ([0-9]+)\ failed$ ]]; then
        echo "failed: $name: its last line counts nothing (status $status)"
        failed=$((failed + 1))
        return
    fi
    here=$((10#${BASH_REMATCH[1]}))
    there=$((10#${BASH_REMATCH[2]}))
    if [ "$there" -eq 0 ] && { [ "$status" -ne 0 ] || [ "$here" -eq 0 ]; }; then
        echo "failed: $name: its last line counts $here passed, 0 failed (status $status)"
        there=1
    fi
    passed=$((passed + here))
    failed=$((failed + there))
}

# count COMMAND..: runs a part, shows what it says, and adds what it counts.
count() {
    local said
    said=$(mktemp) || exit 1
    "$@" 2>&1 | tee "$said"
    add_counts "$1" "${PIPESTATUS[0]}" "$said"
    rm -f "$said"
}

# count_as NAME COMMAND..: runs a part, adds what it counts, and shows the end of what it says where something failed.
count_as() {
    local name=$1 status=0 before=$failed said
    said=$(mktemp) || exit 1
    shift
    "$@" >"$said" 2>&1 || status=$?
    add_counts "$name" "$status" "$said"
    [ "$failed" -eq "$before" ] || { echo "failed: $name"; tail -n 20 "$said"; }
    rm -f "$said"
}

# start COMMAND..: starts a part beside the others. What it says goes to a file of its own.
started=()
start() {
    local said
    said=$(mktemp) || exit 1
    "$@" >"$said" 2>&1 &
    started+=("$1" "$!" "$said")
}

# count_started: waits for the parts that were started, in their order, shows what each said, and adds what it counts.
count_started() {
    local at status
    for ((at = 0; at < ${#started[@]}; at += 3)); do
        status=0
        wait "${started[at + 1]}" || status=$?
        cat "${started[at + 2]}"
        add_counts "${started[at]}" "$status" "${started[at + 2]}"
        rm -f "${started[at + 2]}"
    done
    started=()
}
