#!/usr/bin/env bash
# Tests what a gate counts: parts that end well and ill, run at once and beside the others. The last line is
# 'N passed, M failed'.
set -u

top=$(cd "$(dirname "${BASH_SOURCE[0]}")/.." && pwd) || exit 1
room=$(mktemp -d) || exit 1
trap 'rm -rf "$room"' EXIT
well=0
ill=0

# The gate of one part, which is run at once, by a name, or started and waited for: what it shows last is its counts.
cat >"$room/gate" <<END
#!/usr/bin/env bash
set -u
. "$top/tests/count.sh" || exit 1
case \$1 in
    started)
        sleep 0.1 &
        start bash -c "\$2"
        count_started
        ;;
    named) count_as part bash -c "\$2" ;;
    *) count bash -c "\$2" ;;
esac
echo "\$passed and \$failed"
END
chmod +x "$room/gate"

# counts NAME PASSED FAILED PART: the gate of this part, a script, counts so many, however it is run.
counts() {
    local way said
    for way in 'at once' named started; do
        said=$("$room/gate" "$way" "$4" 2>&1)
        if [ "$(tail -n 1 <<<"$said")" = "$2 and $3" ]; then
            well=$((well + 1))
        else
            ill=$((ill + 1))
            printf 'failed: %s, %s\n%s\n' "$1" "$way" "$said"
        fi
    done
}

counts "a good part" 5 0 'echo some words; echo "5 passed, 0 failed"'
counts "a part with failures" 5 2 'echo "5 passed, 2 failed"; exit 1'
counts "a part with failures that ends with 0" 5 2 'echo "5 passed, 2 failed"'
counts "a part with failures alone" 0 2 'echo "0 passed, 2 failed"; exit 1'
counts "a part that ends with 3 after a good count" 5 1 'echo "5 passed, 0 failed"; exit 3'
counts "a part that is killed after a good count" 3000 1 'echo "3000 passed, 0 failed"; kill -KILL $$'
counts "a part that passes nothing" 0 1 'echo "0 passed, 0 failed"'
counts "a part that passes nothing and ends with 1" 0 1 'echo "0 passed, 0 failed"; exit 1'
counts "a part with no line" 0 1 ':'
counts "a part with no count" 0 1 'echo done'
counts "a part whose count isn't its last line" 0 1 'echo "5 passed, 0 failed"; echo Killed'
counts "a part whose last line is more than a count" 0 1 'echo "some 5 passed, 0 failed"'
counts "a part that isn't there" 0 1 "exec $room/missing"
counts "a count with zeros before it" 8 0 'echo "08 passed, 00 failed"'

# A part with a name shows what it said where it failed, and nothing where it did not.
said=$("$room/gate" named 'echo why; echo "5 passed, 0 failed"; exit 3')
quiet=$("$room/gate" named 'echo why; echo "5 passed, 0 failed"')
if grep -qx why <<<"$said" && grep -qx 'failed: part' <<<"$said" && [ "$quiet" = '5 and 0' ]; then
    well=$((well + 1))
else
    ill=$((ill + 1))
    printf 'failed: what a part with a name shows\n%s\n%s\n' "$said" "$quiet"
fi

# Two parts side by side are both counted, the first one though it ends last.
said=$(bash -c '. "$1"; start bash -c "sleep 0.2; echo 2 passed, 1 failed"; start bash -c "echo 3 passed, 0 failed"
    count_started; count_started; echo "$passed and $failed"' bash "$top/tests/count.sh")
if [ "$said" = $'2 passed, 1 failed\n3 passed, 0 failed\n5 and 1' ]; then
    well=$((well + 1))
else
    ill=$((ill + 1))
    printf 'failed: two parts side by side\n%s\n' "$said"
fi

echo "$well passed, $ill failed"
[ "$ill" -eq 0 ]
