#!/usr/bin/env bash
# Runs the program from outside, and compares what it writes and its status. The last line is
# 'N passed, M failed'. PARTIAL may name a built program; else it is the proved one that `rt ci` or `rt run`
# left, and is proved and built here where it is missing or a source is newer.
set -u

top=$(cd "$(dirname "${BASH_SOURCE[0]}")/.." && pwd) || exit 1
. "$top/scripts/fresh.sh" || exit 1
. "$top/tests/count.sh" || exit 1
. "$top/scripts/need.sh" && need rt python3
program=${PARTIAL:-}
if [ -z "$program" ]; then
    program=$top/crates/partial/out/partial
    if ! is_fresh "$program" && ! (cd "$top/crates/partial" && rt run -- replay <stdin >/dev/null); then
        echo "0 passed, 1 failed"
        exit 1
    fi
fi

room=$(mktemp -d) || exit 1
trap 'rm -rf "$room"' EXIT

# case NAME STATUS WORD..: the program reads $room/in, and must write $room/out and $room/err.
case_of() {
    local name=$1 status=$2 given
    shift 2
    "$program" "$@" <"$room/in" >"$room/given-out" 2>"$room/given-err"
    given=$?
    if [ "$given" -eq "$status" ] && cmp -s "$room/out" "$room/given-out" && cmp -s "$room/err" "$room/given-err"; then
        passed=$((passed + 1))
    else
        failed=$((failed + 1))
        echo "failed: $name (status $given)"
        diff "$room/out" "$room/given-out"
        diff "$room/err" "$room/given-err"
    fi
}

# What the next case reads and must write: texts of standard input, output and error.
expect() {
    printf '%s' "$1" >"$room/in"
    printf '%s' "$2" >"$room/out"
    printf '%s' "$3" >"$room/err"
}

# holds NAME COMMAND..: the command must succeed.
holds() {
    local name=$1
    shift
    if "$@"; then
        passed=$((passed + 1))
    else
        failed=$((failed + 1))
        echo "failed: $name"
    fi
}

# blames NAME TEXT WORD..: the program ends with 2, writes nothing to standard output, and has this text on the first
# line of standard error.
blames() {
    local name=$1 text=$2 given
    shift 2
    "$program" "$@" </dev/null >"$room/given-out" 2>"$room/given-err"
    given=$?
    holds "$name (status $given): $(head -n 1 "$room/given-err")" blamed "$given" "$text"
}

# blamed STATUS TEXT: what the program that ended so has written blames this.
blamed() {
    [ "$1" -eq 2 ] && [ ! -s "$room/given-out" ] && head -n 1 "$room/given-err" | grep -qF -- "$2"
}

# helps NAME WORD..: the program's help names each of these words on standard output, and nothing is wrong.
helps() {
    local name=$1 word
    shift
    "$program" --help </dev/null >"$room/given-out" 2>"$room/given-err"
    holds "$name ends with 0" test $? -eq 0
    holds "$name writes no fault" test ! -s "$room/given-err"
    for word in "$@"; do
        holds "$name names $word" grep -qF -- "$word" "$room/given-out"
    done
}

# refuses NAME NUMBER TEXT PLAN: this text on standard input is refused.
refuses() {
    expect "$4" "" "partial: refused $2: $3"$'\n'
    case_of "$1" 1 replay
}

# Every plan, from a file and from standard input.
for plan in "$top"/plans/*.plan; do
    name=$(basename "$plan" .plan)
    expect "" "" ""
    cp "$top/plans/$name.expected" "$room/out"
    case_of "$name from a file" 0 replay "$plan"
    cp "$plan" "$room/in"
    case_of "$name from standard input" 0 replay
    expect "" $'lawful\n' ""
    case_of "$name checked" 0 check "$plan"
done

# Every plan, run: its report is judged. Where a plan has one port, and all of its calls end in the replay,
# there is one report: the answers of the replay without their places.
one_report=0
for plan in "$top"/plans/*.plan; do
    name=$(basename "$plan" .plan)
    if "$program" run "$plan" >"$room/report" 2>"$room/given-err" && [ ! -s "$room/given-err" ] &&
        "$top/tests/judge.py" "$plan" <"$room/report"; then
        passed=$((passed + 1))
    else
        failed=$((failed + 1))
        echo "failed: the report of $name"
        cat "$room/report" "$room/given-err"
    fi
    calls=$(sed -n 's/^port //p' "$plan" | tr ';' '\n' | grep -c .)
    [ "$(grep -c '^port' "$plan")" -eq 1 ] && [ "$(grep -c '^call ' "$top/plans/$name.expected")" -eq "$calls" ] || continue
    grep -q ' unfinished ' "$top/plans/$name.expected" && continue
    one_report=$((one_report + 1))
    expect "" "" ""
    sed '/^applied /d; /^total /d; s/ place [0-9]*//; s/ prefix [0-9]*//; s/ steps [0-9]* span .*//' "$top/plans/$name.expected" >"$room/out"
    case_of "$name run" 0 run "$plan"
done
if [ "$one_report" -lt 5 ]; then
    failed=$((failed + 1))
    echo "failed: only $one_report plans with one report"
fi

# Random plans of 2 to 64 ports, each run many times on all cores.
count "$top/tests/runs.py" "$program"

# Random plans of one port: what is run is what is replayed.
count "$top/tests/alone.py" "$program"

# 64 ports where there is no room for 64 threads: nothing is written, once the started ones have ended.
{
    printf 'sizes 2 64 64 4096\ninitial 10 20\n'
    printf 'port read 0; update 1 %d\n' {1..64}
    printf 'steps\n'
} >"$room/threads.plan"
expect "" "" $'partial: refused 6: out of memory\n'
if (failed=0 && ulimit -v 100000 && case_of too_many_threads 1 run "$room/threads.plan" && [ "$failed" -eq 0 ]); then
    passed=$((passed + 1))
else
    failed=$((failed + 1))
fi

# Nothing of that first plan is run where the second one has fewer components: its refusal comes first.
expect "" "" "partial: refused 13: $room/small.plan: fewer components than before"$'\n'
printf '%s' $'sizes 1 4 8 64\ninitial 0\nport\nsteps\n' >"$room/small.plan"
if (failed=0 && ulimit -v 100000 && case_of fewer_components_before_threads 1 run "$room/threads.plan" "$room/small.plan" &&
    [ "$failed" -eq 0 ]); then
    passed=$((passed + 1))
else
    failed=$((failed + 1))
fi

# The rows of the commands' tests stand in plans/ with the same texts, each of them.
rows=$(sed 's/^ *b"/b"/' "$top/crates/replay_tests/src/commands/rows.rt")
whole() {
    local text
    text=$(cat "$1" && printf .)
    printf -v "$2" '%s' "${text%.}"
}
same=0
for plan in "$top"/plans/*.plan; do
    name=$(basename "$plan" .plan)
    whole "$plan" given
    whole "$top/plans/$name.expected" wanted
    row="\"$name\","$'\n'"b\"$given\","$'\n'"b\"$wanted\","
    [[ $rows == *"$row"* ]] && same=$((same + 1))
done
if [ "$same" -gt 0 ] && [ "$(grep -c 'b"sizes ' <<<"$rows")" -eq "$same" ]; then
    passed=$((passed + 1))
else
    failed=$((failed + 1))
    echo "failed: only $same rows of the tests stand in plans/"
fi

# Each fault.
head=$'sizes 2 4 8 64\ninitial 10 20\n'
tail=$'port read 0\nsteps rest\n'
rest=$'initial 10 20\n'$tail
refuses components 1 "components out of range" $'sizes 0 4 8 64\n'"$rest"
refuses slots 2 "slots out of range" $'sizes 2 0 8 64\n'"$rest"
refuses lists 3 "list words out of range" $'sizes 2 4 65537 64\n'"$rest"
refuses pool 4 "pool words out of range" $'sizes 2 4 8 5\n'"$rest"
refuses ports 5 "ports out of range" "$head"$'steps rest\n'
refuses line_end 10 "line 1: end" ""
refuses line_ends_with_crlf 10 "line 1: number" "$(printf '%s' "$head$tail" | sed 's/$/\r/')"
refuses line_word 10 "line 3: word" "$head"$'port swap 0 1\nsteps rest\n'
refuses line_count 10 "line 3: count" "$head"$'port update 0\nsteps rest\n'
refuses line_number 10 "line 2: number" $'sizes 2 4 8 64\ninitial 10 x\n'"$tail"
refuses line_range 10 "line 4: range" "$head"$'port read 0\nsteps 1*2\n'
refuses line_extra 10 "line 5: extra" "$head$tail"$'port\n'
refuses scan_of_more_positions_than_components 10 "line 3: count" "$head"$'port scan 0 0 1\nsteps rest\n'
refuses scan_of_no_number 10 "line 3: number" "$head"$'port scan 0 x\nsteps rest\n'
refuses scan_of_too_great_an_index 10 "line 3: number" "$head"$'port scan 4294967296\nsteps rest\n'
refuses scan_with_a_space_behind 10 "line 3: number" "$head"$'port scan \nsteps rest\n'
refuses scan_behind_no_space 10 "line 3: number" "$head"$'port scan 0;scan 1\nsteps rest\n'

# A check reads its plan as a replay does.
expect "$head$tail" $'lawful\n' ""
case_of check_from_standard_input 0 check
expect "$head" "" $'partial: refused 10: line 3: end\n'
case_of check_refuses_a_plan 1 check
expect "" "" $'partial: refused 11: read fault\n'
case_of check_of_missing_file 1 check "$room/missing"

# So does a run, which doesn't use the turns.
expect "$head"$'port update 0 7; read 0\nsteps\n' $'call 0 0 applied 24\ncall 0 1 read 7 24\nvalues 7 20\n' ""
case_of run_from_standard_input 0 run
expect "$head"$'port read 2; scan\nsteps 0*1\n' $'call 0 0 refused 7\ncall 0 1 scanned collects 0 borrowed -\nvalues 10 20\n' ""
case_of run_uses_no_turns 0 run
expect "$head" "" $'partial: refused 10: line 3: end\n'
case_of run_refuses_a_plan 1 run
expect "" "" $'partial: refused 11: read fault\n'
case_of run_of_missing_file 1 run "$room/missing"

# A run that goes on in a second plan, whose initial values and turns aren't used.
printf '%s' "$head"$'port update 0 7; read 0\nsteps\n' >"$room/first.plan"
printf '%s' $'sizes 3 4 8 64\ninitial 0 0 0\nport read 0; read 2\nsteps rest\n' >"$room/second.plan"
printf '%s' $'sizes 1 4 8 64\ninitial 0\nport\nsteps\n' >"$room/small.plan"
expect "" $'call 0 0 applied 24\ncall 0 1 read 7 24\nvalues 7 20\ncall 0 0 read 7 19\ncall 0 1 read 0 25\nvalues 7 20 0\n' ""
case_of run_goes_on 0 run "$room/first.plan" "$room/second.plan"
# A fault names the file that it is of.
expect "" "" "partial: refused 13: $room/small.plan: fewer components than before"$'\n'
case_of run_with_fewer_components 1 run "$room/first.plan" "$room/small.plan"
expect "" "" "partial: refused 11: $room/missing: read fault"$'\n'
case_of run_with_missing_next_file 1 run "$room/first.plan" "$room/missing"
case_of run_of_missing_file_with_next 1 run "$room/missing" "$room/second.plan"
expect "" "" "partial: refused 11: $room: read fault"$'\n'
case_of run_with_unreadable_next_file 1 run "$room/first.plan" "$room"
expect "" "" "partial: refused 10: $room/long.plan: line 0: size"$'\n'
head -c 4194305 /dev/zero >"$room/long.plan"
case_of run_with_too_long_next_plan 1 run "$room/first.plan" "$room/long.plan"
case_of run_of_too_long_plan_with_next 1 run "$room/long.plan" "$room/second.plan"
printf '%s' "$head" >"$room/ended.plan"
expect "" "" "partial: refused 10: $room/ended.plan: line 3: end"$'\n'
case_of run_of_refused_plan_with_next 1 run "$room/ended.plan" "$room/second.plan"
case_of run_with_refused_next_plan 1 run "$room/first.plan" "$room/ended.plan"

# A plan that is longer than a plan may be: 4,194,305 bytes.
expect "" "" $'partial: refused 10: line 0: size\n'
head -c 4194305 /dev/zero >"$room/in"
case_of line_size 1 replay

# A short plan that makes more steps than there is room to trace: 1,000 updates, each of which walks the
# slots that 20,000 scans have left.
{
    printf 'sizes 1 65536 0 4194304\ninitial 0\nport scan 0'
    printf '%.0s; scan 0' {2..20000}
    printf '; update 0 %d' {1..1000}
    printf '\nsteps rest\n'
} >"$room/walk.plan"
expect "" "" $'partial: refused 6: out of memory\n'
if (failed=0 && ulimit -v 400000 && case_of more_steps_than_room 1 replay "$room/walk.plan" && [ "$failed" -eq 0 ]); then
    passed=$((passed + 1))
else
    failed=$((failed + 1))
fi

# A file that isn't there, and one that can't be read.
expect "" "" $'partial: refused 11: read fault\n'
case_of missing_file 1 replay "$room/missing"
case_of unreadable_file 1 replay "$room"

# Words that the program doesn't take, or that ask for help.
blames "no word" "requires a subcommand"
blames "an unknown verb" "'repeat'" repeat
blames "too many words" "'two'" replay one two
blames "an unknown option" "'--fast'" replay --fast
blames "too many words to check" "'two'" check one two
blames "too many words to run" "'three'" run one two three
blames "two plans of standard input" "partial: one of two plans alone can be standard input" run - -
blames "a name that isn't UTF-8" "partial: the words are not text" replay $'\xff'
helps "the help" replay check run "partial replay plans/lost_exchange.plan" \
    "partial check plans/lost_exchange.plan" "partial run - <plans/lost_exchange.plan"

# A `-` is standard input.
expect "$head$tail" $'call 0 0 read 10 18 prefix 0 steps 2 span 0 0\nvalues 10 20\ntotal 2\n' ""
case_of dash_replayed 0 replay -
expect "$head$tail" $'lawful\n' ""
case_of dash_checked 0 check -
expect "$head$tail" $'call 0 0 read 10 18\nvalues 10 20\n' ""
case_of dash_run 0 run -
expect "$head"$'port update 0 7; read 0\nsteps\n' $'call 0 0 applied 24\ncall 0 1 read 7 24\nvalues 7 20\ncall 0 0 read 7 19\ncall 0 1 read 0 25\nvalues 7 20 0\n' ""
case_of dash_goes_on 0 run - "$room/second.plan"
expect "$head" "" $'partial: refused 10: -: line 3: end\n'
case_of dash_refused_with_next 1 run - "$room/second.plan"
case_of dash_refused_as_next 1 run "$room/first.plan" -

# A writer that fails.
# write_fault NAME STATUS: the program must have ended with this status, with the line of a write fault.
write_fault() {
    if [ "$2" -eq 1 ] && [ "$(cat "$room/given-err")" = "partial: refused 12: write fault" ]; then
        passed=$((passed + 1))
    else
        failed=$((failed + 1))
        echo "failed: $1 (status $2)"
    fi
}
printf '%s' "$head$tail" >"$room/in"
for verb in replay run; do
    if [ -w /dev/full ]; then
        "$program" "$verb" <"$room/in" >/dev/full 2>"$room/given-err"
        write_fault "full_device of $verb" "$?"
    fi
    # Nobody reads the pipe any more when the program writes.
    { sleep 0.3; "$program" "$verb" <"$room/in" 2>"$room/given-err"; echo "$?" >"$room/status"; } | true
    write_fault "closed_pipe of $verb" "$(cat "$room/status")"
done

# The program `pipeline`: PIPELINE may name a built one.
partial=$program
program=${PIPELINE:-$top/crates/pipeline/out/pipeline}
if [ -z "${PIPELINE:-}" ] && ! is_fresh "$program"; then
    (cd "$top/crates/pipeline" && rt run -- --items 0 --looks 0 >/dev/null)
fi
expect "" $'last 0 0 0 0 lag 0 0 0\n' ""
case_of "pipeline: no items" 0 --items 0 --looks 0
expect "" $'last 300 lag\n' ""
case_of "pipeline: one stage" 0 --stages 1 --items 300 --looks 0
for words in "0" "64" "x" "18446744073709551616"; do
    blames "pipeline: $words stages" "pipeline: --stages takes a number from 1 to 63" --stages "$words"
done
blames "pipeline: too many items" "pipeline: --items takes a number below 2^64" --items 18446744073709551616
blames "pipeline: items that are no number" "pipeline: --items takes a number below 2^64" --items x
blames "pipeline: too many looks" "pipeline: --looks takes a number from 0 to 65535" --looks 65536
blames "pipeline: a negative number" "'-1'" --items -1
blames "pipeline: an option without its number" "--items" --items
blames "pipeline: an unknown option" "'--more'" --more 1
blames "pipeline: an unknown word" "'more'" more
helps "pipeline: the help" --stages --items --looks

# lines STAGES ITEMS: in the given lines no count is greater than the one before it, none falls, each lag is the
# difference of two neighbours, and the last line has that count for each stage.
lines() {
    awk -v stages="$1" -v items="$2" '
        NF != 2 * stages + 1 || ended || ($1 != "counts" && $1 != "last") || $(stages + 2) != "lag" { bad = 1 }
        { for (k = 2; k <= stages + 1; k++) { if ((k > 2 && $k > $(k - 1)) || $k < was[k]) bad = 1; was[k] = $k } }
        { for (k = 3; k <= stages + 1; k++) if ($(k + stages) != $(k - 1) - $k) bad = 1 }
        $1 == "last" { ended = 1; for (k = 2; k <= stages + 1; k++) if ($k != items) bad = 1 }
        END { exit bad || !ended }
    ' "$room/given-out"
}

# shows NAME STAGES ITEMS WORD..: the lines of such a pipeline, which ends with all items.
shows() {
    local name=$1 stages=$2 items=$3 given
    shift 3
    "$program" --stages "$stages" --items "$items" "$@" >"$room/given-out" 2>"$room/given-err"
    given=$?
    if [ "$given" -eq 0 ] && lines "$stages" "$items" && [ ! -s "$room/given-err" ]; then
        passed=$((passed + 1))
    else
        failed=$((failed + 1))
        echo "failed: $name (status $given)"
        head -n 40 "$room/given-out" "$room/given-err"
    fi
}
shows "pipeline: two stages" 2 3000 --looks 300
shows "pipeline: eight stages" 8 2000
shows "pipeline: 63 stages" 63 50 --looks 100
shows "pipeline: many epochs" 2 100000 --looks 50

# Long work is shown on a terminal, and nowhere else, and what the pipeline draws fits the terminal.
count "$top/tests/terminal.py" "$partial" "$program"
program=$partial

# The program `picture`: PICTURE may name a built one.
program=${PICTURE:-$top/crates/picture/out/picture}
if [ -z "${PICTURE:-}" ] && ! is_fresh "$program"; then
    (cd "$top/crates/picture" && rt run -- <stdin >/dev/null)
fi

# shapes PART: how many of these stand in the drawing, without those of the legend.
shapes() {
    sed '/<g class="legend"/,$d' "$room/drawn" | grep -c -- "$1"
}

# Whether the drawing has one mark for each step of the outcome, one bar for each of its calls, and one entry for
# each of its applied updates; whether it touches a word in each step; and whether it has an arrow for each update
# that was lost and each view that was borrowed. An update that was changed may have one.
draws_all() {
    local outcome=$1 steps calls entries lost changed borrowed arrows
    steps=$(sed -n 's/^total //p' "$outcome")
    calls=$(grep -c '^call ' "$outcome")
    entries=$(grep -c '^applied ' "$outcome")
    lost=$(grep -cE '^call [0-9]+ [0-9]+ lost ' "$outcome")
    changed=$(grep -cE '^call [0-9]+ [0-9]+ changed ' "$outcome")
    borrowed=$(grep -cE ' borrowed [0-9]+ steps ' "$outcome")
    arrows=$(shapes '<path class="arrow ')
    [ "$(shapes 'class="mark ')" -eq "$steps" ] && [ "$(shapes 'class="touched"')" -eq "$steps" ] &&
        [ "$(shapes '<rect class="bar')" -eq "$calls" ] && [ "$(shapes 'class="entry"')" -eq "$entries" ] &&
        [ "$arrows" -ge $((lost + borrowed)) ] && [ "$arrows" -le $((lost + borrowed + changed)) ]
}

# Whether a drawing from which one mark, the words of one pin or one bar was taken is distinguished from what its
# outcome says.
tells_apart() {
    local told=0 turned
    for turned in '0,/class="mark /s//class="/' '0,/<title>applied 0/s//<title>applied 1/' '0,/class="bar"/s//class=""/'; do
        sed "$turned" "$room/drawn" >"$room/turned"
        "$top/tests/drawing.py" "$room/turned" "$1" "$2" >/dev/null && told=1
    done
    return "$told"
}

# Every plan: what is drawn is what the plan and its outcome say, each shape once for its event. That standard input
# gives the same bytes as the file shows no more than that: the same drawing, twice.
for plan in "$top"/plans/*.plan; do
    name=$(basename "$plan" .plan)
    "$program" --words "$plan" >"$room/drawn"
    holds "picture: the contents of $name" "$top/tests/drawing.py" "$room/drawn" "$plan" "$top/plans/$name.expected"
    holds "picture: what stands in $name" draws_all "$top/plans/$name.expected"
    [ "$name" != lost_exchange ] || holds "picture: a turned drawing" tells_apart "$plan" "$top/plans/$name.expected"
    cp "$plan" "$room/in"
    cp "$room/drawn" "$room/out"
    : >"$room/err"
    case_of "picture: the same drawing twice of $name" 0 --words
    holds "picture: the table of $name" test "$("$program" --text "$plan" | grep -cE '^ +[0-9]+  ')" -eq \
        "$(sed -n 's/^total //p' "$top/plans/$name.expected")"
done

# 2,000 steps are drawn, and 2,001 by windows alone.
reads=$(printf '; read %d' {1..999} | sed 's/ [0-9]*;/ 0;/g; s/ [0-9]*$/ 0/')
printf '%s' "$head"$'port read 0'"$reads"$'\nsteps rest\n' >"$room/most.plan"
printf '%s' "$head"$'port read 0'"$reads"$'\nport read 0\nsteps 0*2000 1*1\n' >"$room/long.plan"
"$program" "$room/most.plan" >"$room/drawn"
holds "picture: 2,000 steps" test "$(shapes 'class="mark ')" -eq 2000
expect "" "" $'picture: refused 15: 2001 steps, of which at most 2000 are drawn: give --window A B\n'
case_of "picture: too many steps" 1 "$room/long.plan"
case_of "picture: too many steps in a window" 1 "$room/long.plan" --window 0 2000
case_of "picture: too many steps for a table" 1 --text "$room/long.plan"
expect "" "" $'picture: refused 16: window out of range of 2001 steps\n'
for window in "5 4" "2001 2001" "0 2001" "0 18446744073709551615"; do
    case_of "picture: a window of $window" 1 "$room/long.plan" --window $window
done
"$program" "$room/long.plan" --window 1 2000 >"$room/drawn"
holds "picture: a window of 2,000 steps" test "$(shapes 'class="mark ')" -eq 2000
expect "" $'  step  port 0   port 1\n  2000           load 0: 18  call 1 0: read 0\n' ""
case_of "picture: a window as text" 0 --window 2000 2000 --text "$room/long.plan"

# The bar of a call with steps outside the window is torn on that side. Port 0 has steps 0 to 6 and 15, port 1 7 to 14.
for torn in "0 15 0" "0 6 1" "3 6 2" "7 14 2" "7 15 1" "8 15 2" "3 10 3"; do
    read -r first last sides <<<"$torn"
    "$program" "$top/plans/lost_exchange.plan" --window "$first" "$last" >"$room/drawn"
    holds "picture: torn sides from $first to $last" test "$(shapes '<path class="cut"')" -eq "$sides"
done

# Faults are those of `partial`.
expect "$head" "" $'picture: refused 10: line 3: end\n'
case_of "picture: no plan" 1
expect "" "" $'picture: refused 11: read fault\n'
case_of "picture: a missing file" 1 "$room/missing"
case_of "picture: an unreadable file" 1 "$room"
expect "" "" $'picture: refused 6: out of memory\n'
if (failed=0 && ulimit -v 400000 && case_of "picture: more steps than room" 1 "$room/walk.plan" && [ "$failed" -eq 0 ]); then
    passed=$((passed + 1))
else
    failed=$((failed + 1))
fi
blames "picture: two plans" "'two'" one two
blames "picture: a window of no step" "--window" --window
blames "picture: a window of one step" "--window" --window 1
blames "picture: a window that is no number" "picture: --window takes the numbers of two steps" --window 1 x
blames "picture: a negative step" "'-1'" --window -1 2
blames "picture: a table with words" "--words" --text --words
blames "picture: an unknown option" "'--fast'" --fast
helps "picture: the help" --window --words --text
expect "$head" "" $'picture: refused 10: line 3: end\n'
case_of "picture: the plan of standard input" 1 -
# A refusal for a line says so when the text has a carriage return, and only then.
expect "${head//$'\n'/$'\r\n'}" "" $'picture: refused 10: line 1: number (a carriage return ends no line)\n'
case_of "picture: lines that end with CRLF" 1
case_of "picture: lines that end with CRLF, in a window" 1 --window 0 1
expect "$head$tail"$'\r' "" $'picture: refused 10: line 5: extra (a carriage return ends no line)\n'
case_of "picture: a carriage return at the end" 1
expect "${head/64/x}" "" $'picture: refused 10: line 1: number\n'
case_of "picture: a word in place of a number" 1
printf '%s' "$head$tail" >"$room/in"
if [ -w /dev/full ]; then
    "$program" <"$room/in" >/dev/full 2>"$room/given-err"
    status=$?
    holds "picture: a full device" test "$status: $(cat "$room/given-err")" = "1: picture: refused 12: write fault"
fi

# The pictures in docs/ are the same drawings as now, and hold what their plans' outcomes say.
PICTURE=$program count "$top/tests/pictures.sh" --check
program=$partial

# ./partial from another folder, in a copy of the sources: first with no proved program, then with one.
copy=$room/copy
mkdir -p "$copy/elsewhere" "$room/bin"
tar -C "$top" --exclude=out -cf - crates crates.txt partial picture scripts | tar -C "$copy" -xf -
cp "$top/plans/lost_exchange.plan" "$copy/lost.plan"
built=$program
program=$copy/partial
cd "$copy/elsewhere" || exit 1

# paths NAME TEXT: each kind of path, with this text on standard error in front of what the program says.
paths() {
    expect "" "" "$2"
    cp "$top/plans/lost_exchange.expected" "$room/out"
    case_of "$1: a path from the caller's folder" 0 replay ../lost.plan
    case_of "$1: a pipe" 0 replay <(cat ../lost.plan)
    expect "" "" "$2"$'partial: refused 11: read fault\n'
    case_of "$1: a path from the folder above" 1 replay lost.plan
    case_of "$1: a folder" 1 replay ..
}

unproved=$'This run is of the sources, with no proof: no proved program is there.\n'
builds=$unproved$'It is built first, which takes a minute or two.\n'
expect "" $'lawful\n' "$builds"
case_of "unproved: the first run builds" 0 check ../lost.plan
ln -s "$copy/partial" "$copy/elsewhere/linked"
program=$copy/elsewhere/linked
expect "" $'lawful\n' "$unproved"
case_of "unproved: through a link" 0 check ../lost.plan
program=$copy/partial
# It has no sanitizer, whose addresses no bound would leave room for.
if (failed=0 && ulimit -v 100000 && case_of "unproved: in 100 MB" 0 check ../lost.plan && [ "$failed" -eq 0 ]); then
    passed=$((passed + 1))
else
    failed=$((failed + 1))
fi
# In a clone that can't be written it is built into a folder of the user's. A file in place of the folder can't be
# written even by root.
mv "$copy/crates/partial/out" "$room/kept-out"
: >"$copy/crates/partial/out"
kept=$room/home/yuthgaren/$(cksum <<<"$copy" | cut -d ' ' -f 1)
mkdir -p "$kept"
cp -p "$room/kept-out/partial_unproved" "$kept/"
expect "" $'lawful\n' "$unproved"
XDG_CACHE_HOME=$room/home case_of "unproved: in a folder of the user's" 0 check ../lost.plan
: >"$room/file"
expect "" "" "$unproved"
echo "partial: neither $copy nor $room/file/yuthgaren/${kept##*/} can be written: let XDG_CACHE_HOME name a folder that can" \
    >>"$room/err"
XDG_CACHE_HOME=$room/file case_of "unproved: in no folder" 2 check ../lost.plan
rm "$copy/crates/partial/out"
mv "$room/kept-out" "$copy/crates/partial/out"

# From here on whatever calls rt fails.
printf '#!/bin/sh\necho built\nexit 1\n' >"$room/bin/rt"
chmod +x "$room/bin/rt"
PATH=$room/bin:$PATH
paths "unproved, built before" "$unproved"
touch "$copy/crates/partial_cmd/src/lib.rt"
expect "" "" "$builds"$'built\n'
case_of "unproved: a newer source is built" 2 replay ../lost.plan
mkdir -p "$copy/crates/partial/out" "$copy/crates/picture/out"
cp "$built" "$copy/crates/partial/out/partial"
paths proved ""

# A replay that asks for more than the bound that its caller sets, or than the one that the launcher sets.
expect "" "" $'partial: refused 6: out of memory\n'
for verb in replay check; do
    REPLAY_MEMORY=400 case_of "a bound of memory in $verb" 1 "$verb" "$room/walk.plan"
done
expect "" "" $'partial: REPLAY_MEMORY takes a number of MiB\n'
for bound in 0 -1 many 1000000000; do
    REPLAY_MEMORY=$bound case_of "a bound of $bound" 2 replay "$room/walk.plan"
done

# bounds NAME TEXT WORD..: a program in place of the proved one writes the bound that it has, which must be this.
bounds() {
    local name=$1 text=$2
    shift 2
    expect "" "$text"$'\n' ""
    case_of "the bound of $name" 0 "$@"
}
printf '#!/bin/sh\nulimit -v\n' >"$copy/crates/partial/out/partial"
cp "$copy/crates/partial/out/partial" "$copy/crates/picture/out/picture"
bounds "a replay" 4194304 replay
bounds "a check" 4194304 check
bounds "a run" "$(ulimit -v)" run
REPLAY_MEMORY=300 bounds "a replay in 300 MiB" 307200 replay
if (failed=0 && ulimit -v 300000 && bounds "a caller" 300000 replay && [ "$failed" -eq 0 ]); then
    passed=$((passed + 1))
else
    failed=$((failed + 1))
fi
program=$copy/picture
bounds "a picture" 4194304

echo "$passed passed, $failed failed"
[ "$failed" -eq 0 ]
