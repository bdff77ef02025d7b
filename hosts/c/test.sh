#!/bin/sh
# Tests of the host, run by `make test`.

press=./press
work=${TMPDIR:-/tmp}/press-test.$$
failed=0

mkdir "$work" || exit 2
trap 'rm -rf "$work"' EXIT
trap 'exit 2' HUP INT TERM

# named NAME: the number that the header has under a name.
named() {
    awk -v name="$1" '$1 == "#define" && $2 == name { print $3 }' \
        ../../include/recipe_runner.h
}

# field_at FIELD TASK: where a state has a field of a task, by the task's index.
field_at() {
    echo $(($(named RECIPE_STATE_TASKS_AT) + $2 * $(named RECIPE_TASK_BYTES) + \
        $(named "RECIPE_TASK_$1_AT")))
}

# variable_at NUMBER
variable_at() {
    echo $(($(named RECIPE_STATE_VARIABLES_AT) + \
        $1 * $(named RECIPE_VARIABLE_BYTES)))
}

state_bytes=$(named RECIPE_STATE_BYTES)

# byte NUMBER: one byte.
byte() {
    printf '%b' "\\0$(printf '%03o' "$(($1 & 255))")"
}

# record KIND NAME SPAN VALUE: one record of a table.
record() {
    byte "$1"; byte "$2"
    byte "$3"; byte "$(($3 >> 8))"
    byte "$4"; byte "$(($4 >> 8))"; byte "$(($4 >> 16))"; byte "$(($4 >> 24))"
}

# table FILE KIND,NAME,SPAN,VALUE...: a table, a record for each word.
table() {
    file=$1
    shift
    printf '%s\n' "$@" | while IFS=, read -r kind name span value; do
        record "$kind" "$name" "$span" "$value"
    done >"$file"
}

# put FILE AT NUMBER...: bytes of a file from an index on, in place of others.
put() {
    file=$1
    at=$2
    shift 2
    for number in "$@"; do
        byte "$number"
    done | dd of="$file" bs=1 seek="$at" conv=notrunc 2>/dev/null
}

# bytes FILE AT COUNT: so many bytes of a file from an index on, as numbers.
bytes() {
    echo $(od -A n -t u1 -v -j "$2" -N "$3" "$1")
}

# check WHAT EXPECTED FOUND
check() {
    if [ "$2" = "$3" ]; then
        echo "ok   $1"
    else
        echo "FAIL $1: expected"
        echo "$2"
        echo "found"
        echo "$3"
        failed=1
    fi
}

# said ARGUMENT...: what the host prints and, as last line, its exit status.
said() {
    "$press" "$@" 2>"$work/errors"
    echo "exit $?"
}

# endings FILE: the ending lines of the runs in a file.
endings() {
    awk 'NF == 2 && $1 != "exit"' "$1"
}

# steps FILE: the sum of their steps.
steps() {
    endings "$1" | awk '{ sum += $2 } END { print sum + 0 }'
}

# words FILE: their words, each once.
words() {
    endings "$1" | awk '{ print $1 }' | sort -u
}

test_rows() {
    table "$work/a" 1,0,5,0 6,8,1,1 9,0,0,5 8,8,0,0 3,0,1,0 9,0,0,1 \
        1,0,2,0 3,1,1,0 10,64,0,0
    check "row A" "spawned 1 0 2
waits 1 0 2
taken 2 0 0
valve 2 1 5
ended 2 0 0
taken 1 0 0
valve 1 0 1
ended 1 0 0
finished 8
exit 0" "$(said "$work/a")"

    table "$work/c" 1,0,1,0 8,8,0,0
    check "row C: an await of a 0 passes when tried" "waits 1 0 0
taken 1 0 0
ended 1 0 0
finished 3
exit 0" "$(said "$work/c")"

    table "$work/guard" 1,0,6,0 6,8,1,1 9,0,0,3 13,0,3,0 11,4,2,0 9,0,0,2 \
        10,9,0,0 1,0,3,0 7,0,0,0 3,9,1,0 10,64,0,0
    check "a guard is turned, then passed" "spawned 1 0 2
waits 1 0 0
taken 2 0 0
gave 2 0 0
turned 1 0 0
taken 2 0 0
ended 2 0 0
taken 1 0 0
ended 1 0 0
finished 10
exit 0" "$(said "$work/guard")"

    table "$work/low" 1,0,2,0 3,0,1,0 9,0,0,-2147483648
    check "a value below 0" "valve 1 0 -2147483648
ended 1 0 0
finished 2
exit 0" "$(said "$work/low")"
}

test_refused_table() {
    table "$work/bad" 1,0,1,0 8,65,0,0
    check "a refused table" "refused 14 1
exit 1" "$(said -s "$work/none" "$work/bad")"

    # 32,776 bytes: one record over.
    dd if=/dev/zero of="$work/long" bs=8 count=4097 2>/dev/null
    check "a table too long" "refused 11 0
exit 1" "$(said -s "$work/none" "$work/long")"

    : >"$work/empty"
    check "an empty table" "refused 11 0
exit 1" "$(said -s "$work/none" "$work/empty")"
    check "no file written" "$work/none*" "$(echo "$work"/none*)"
}

test_refused_state() {
    printf '\001\000' >"$work/short"
    cp "$work/short" "$work/short.was"
    check "a state too short" "refused 21 0
exit 1" "$(said -s "$work/short" "$work/a")"

    dd if=/dev/zero of="$work/zeros" bs=$state_bytes count=1 2>/dev/null
    cp "$work/zeros" "$work/zeros.was"
    check "a state against the rules" "refused 22 0
exit 1" "$(said -s "$work/zeros" "$work/a")"

    for length in $((state_bytes - 1)) $((state_bytes + 1)) 520; do
        dd if=/dev/zero of="$work/other" bs=$length count=1 2>/dev/null
        check "a state of $length bytes" "refused 21 0
exit 1" "$(said -s "$work/other" "$work/a")"
    done

    cmp "$work/short" "$work/short.was" && cmp "$work/zeros" "$work/zeros.was"
    check "refused states are kept" 0 $?
}

# task_of FILE TASK: number, place, parameter, spawner and times taken up.
task_of() {
    echo "$(bytes "$1" "$(field_at NUMBER "$2")" 2)," \
        "$(bytes "$1" "$(field_at PLACE "$2")" 2)," \
        "$(bytes "$1" "$(field_at PARAMETER "$2")" 4)," \
        "$(bytes "$1" "$(field_at SPAWNER "$2")" 2)," \
        "$(bytes "$1" "$(field_at TAKEN "$2")" 4)"
}

# Row A after its first slice: task 2 is active, and main waits for it.
test_starters() {
    said -s "$work/live" -n 1 "$work/a" >/dev/null
    check "a saved state's size" 776 "$(($(wc -c <"$work/live")))"
    check "two numbers are issued" "2 0" \
        "$(bytes "$work/live" "$(named RECIPE_STATE_ISSUED_AT)" 2)"
    check "two tasks are live" 2 \
        "$(bytes "$work/live" "$(named RECIPE_STATE_LIVE_AT)" 1)"
    check "one of them is active" 1 \
        "$(bytes "$work/live" "$(named RECIPE_STATE_ACTIVE_AT)" 1)"
    check "task 2 at its end, spawned by 1, taken up once" \
        "2 0, 9 0, 5 0 0 0, 1 0, 1 0 0 0" "$(task_of "$work/live" 0)"
    check "task 1 at its await, spawned by none, never taken up" \
        "1 0, 3 0, 0 0 0 0, 0 0, 0 0 0 0" "$(task_of "$work/live" 1)"

    # Taken up twice a slice, for ever.
    table "$work/again" 1,0,3,0 5,0,2,0 9,0,0,1 7,0,0,0
    said -s "$work/again.state" -n 1 "$work/again" >/dev/null
    check "task 1: taken up twice" "2 0 0 0" \
        "$(bytes "$work/again.state" "$(field_at TAKEN 0)" 4)"
    put "$work/again.state" "$(field_at TAKEN 0)" 254 255 255 255
    said -s "$work/again.state" -n 1 "$work/again" >/dev/null
    check "the times taken up stay at the largest value" "255 255 255 255" \
        "$(bytes "$work/again.state" "$(field_at TAKEN 0)" 4)"
}

# damaged WHAT PLACE AT NUMBER...: a state that differs in these bytes is
# refused at the state record.
damaged() {
    what=$1
    place=$2
    shift 2
    cp "$work/live" "$work/damaged"
    put "$work/damaged" "$@"
    cp "$work/damaged" "$work/damaged.was"
    check "$what" "refused 22 $place
exit 1" "$(said -s "$work/damaged" "$work/a")"
    cmp "$work/damaged" "$work/damaged.was"
    check "$what: kept" 0 $?
}

test_damaged_starters() {
    second=$(field_at SPAWNER 0)
    damaged "task 2 with no spawner" 2 "$second" 0 0
    damaged "task 2 with itself as its spawner" 2 "$second" 2 0
    damaged "task 2 with a later spawner" 2 "$second" 1 1
    damaged "task 2 with byte 2 not zero" 2 $((second + 2)) 1
    damaged "task 2 with byte 3 not zero" 2 $((second + 3)) 128
    second=$(field_at SPAWNER 1)
    damaged "task 1 with a spawner" 4 "$second" 1 0
    damaged "task 1 with byte 3 not zero" 4 $((second + 3)) 1
    damaged "an unused second record with a spawner" 6 "$(field_at SPAWNER 2)" 1
    damaged "an unused second record with a count" 6 \
        "$(field_at TAKEN 2)" 0 0 0 1
    damaged "the last unused second record" 64 $(($(variable_at 0) - 1)) 1
}

# Two tasks set valve 1 and yield; main counts to 150 without a record, which
# takes slices of full length, then waits for both.
long_table() {
    table "$work/long_run" 1,0,18,0 6,8,1,1 9,0,0,7 6,9,1,1 9,0,0,11 \
        5,0,7,0 11,4,2,0 10,10,0,0 9,0,0,150 \
        3,10,3,0 11,0,2,0 10,10,0,0 9,0,0,1 \
        8,8,0,0 8,9,0,0 3,0,2,0 12,0,1,0 10,10,0,0 2,0,0,0 \
        1,0,11,0 5,0,10,0 11,4,2,0 9,0,0,0 10,64,0,0 \
        3,1,1,0 10,64,0,0 7,0,0,0 3,64,3,0 11,1,2,0 10,64,0,0 9,0,0,1
}

# resumed: one slice after another, each by a new process, until the run ends;
# 100 are more than it needs.
resumed() {
    slice=0
    while [ $slice -lt 100 ]; do
        slice=$((slice + 1))
        said -s "$work/parts.state" -n 1 "$work/long_run" >"$work/part"
        cat "$work/part"
        case $(tail -n 2 "$work/part") in
        paused*|logfull*) ;;
        *) return ;;
        esac
    done
}

test_resume() {
    long_table
    said -s "$work/whole.state" "$work/long_run" >"$work/whole"
    resumed >"$work/parts"

    check "the whole run finishes" "finished" "$(words "$work/whole")"
    check "stopped by budget and by log" "finished
logfull
paused" "$(words "$work/parts")"
    check "same log" "$(awk 'NF == 4' "$work/whole")" \
        "$(awk 'NF == 4' "$work/parts")"
    check "same steps" "$(steps "$work/whole")" "$(steps "$work/parts")"
    cmp "$work/whole.state" "$work/parts.state"
    check "same last state" 0 $?
    check "no temporary file left" "$work/*.tmp" "$(echo "$work"/*.tmp)"
    check "a finished run stays so" "finished 0
exit 0" "$(said -s "$work/parts.state" "$work/long_run")"
}

# A guard over variable 8.
test_sensor() {
    table "$work/sensor" 1,0,4,0 13,0,1,0 10,8,0,0 3,0,1,0 10,8,0,0
    check "an untrue guard is stuck" "waits 1 0 0
stuck 1
exit 3" "$(said -s "$work/sensor.state" "$work/sensor")"
    put "$work/sensor.state" "$(variable_at 8)" 7
    check "a reading written between calls" "taken 1 0 0
valve 1 0 7
ended 1 0 0
finished 3
exit 0" "$(said -s "$work/sensor.state" "$work/sensor")"
}

# Variable 8, awaited, holds a number never issued until the host writes a 0.
test_optional() {
    table "$work/never" 1,0,3,0 3,8,1,0 9,0,0,65536 8,8,0,0
    check "a number never issued is stuck" "waits 1 0 65536
stuck 2
exit 3" "$(said -s "$work/never.state" "$work/never")"
    put "$work/never.state" "$(variable_at 8)" 0 0 0 0
    check "a 0 written between calls" "taken 1 0 0
ended 1 0 0
finished 2
exit 0" "$(said -s "$work/never.state" "$work/never")"

    # Task 2 is spawned into variable 8 if the number is not 0, and awaited.
    for wanted in 0 1; do
        table "$work/optional$wanted" 1,0,7,0 4,0,3,0 9,0,0,$wanted 6,8,1,1 \
            9,0,0,0 8,8,0,0 3,0,1,0 9,0,0,5 1,0,0,0
    done
    check "an optional task that is not wanted" "waits 1 0 0
taken 1 0 0
valve 1 0 5
ended 1 0 0
finished 5
exit 0" "$(said "$work/optional0")"
    check "an optional task that is wanted" "spawned 1 0 2
waits 1 0 2
taken 2 0 0
ended 2 0 0
taken 1 0 0
valve 1 0 5
ended 1 0 0
finished 8
exit 0" "$(said "$work/optional1")"
}

# Valve 1, then valve 0 set to 6 by variable 8, at record 3.
test_divisor() {
    table "$work/share" 1,0,6,0 3,1,1,0 9,0,0,1 3,0,3,0 11,3,2,0 9,0,0,6 \
        10,8,0,0
    check "a zero divisor stops before its set" "valve 1 1 1
novalue 1
exit 3" "$(said -s "$work/share.state" "$work/share")"
    check "its record is told" "press: record 3 divides by 0" \
        "$(cat "$work/errors")"
    cp "$work/share.state" "$work/share.was"
    check "it stops there again" "novalue 0
exit 3" "$(said -s "$work/share.state" "$work/share")"
    cmp "$work/share.state" "$work/share.was"
    check "its state is kept" 0 $?
    put "$work/share.state" "$(variable_at 8)" 2
    check "another divisor written between calls" "valve 1 0 3
ended 1 0 0
finished 2
exit 0" "$(said -s "$work/share.state" "$work/share")"

    # Behind as many steps as a slice has.
    table "$work/late" 1,0,104,0 \
        $(awk 'BEGIN { while (i++ < 100) print "2,0,0,0" }') \
        3,0,3,0 11,3,2,0 9,0,0,6 10,8,0,0
    check "a budget used up is told first" "paused 100
exit 3" "$(said -s "$work/late.state" -n 1 "$work/late")"
    check "then the zero divisor" "novalue 0
exit 3" "$(said -s "$work/late.state" "$work/late")"

    table "$work/untrue" 1,0,4,0 13,0,3,0 11,3,2,0 9,0,0,6 10,8,0,0
    check "a guard without a value is stuck" "waits 1 0 0
stuck 1
exit 3" "$(said "$work/untrue")"
}

# told TABLE: what the host tells on standard error.
told() {
    said "$1" >/dev/null
    cat "$work/errors"
}

# Who waits for whom, of runs that end stuck, and nothing of others.
test_chains() {
    check "a number never issued is told" \
        "press: task 1 waits for a number never issued" "$(told "$work/never")"

    table "$work/d" 1,0,3,0 3,8,1,0 9,0,0,1 8,8,0,0
    check "a task that waits for itself" "press: task 1 waits for task 1
press: task 1 was named before: a circle" "$(told "$work/d")"

    # Task 2 waits for main, which is at the guard.
    table "$work/behind" 1,0,6,0 3,9,1,0 9,0,0,1 6,8,1,1 9,0,0,0 \
        13,0,1,0 9,0,0,0 1,0,1,0 8,9,0,0
    check "a task behind one at a guard" "press: task 2 waits for task 1
press: task 1 waits at an untrue guard" "$(told "$work/behind")"
    check "a guard without a value" "press: task 1 waits at an untrue guard" \
        "$(told "$work/untrue")"

    for file in a c guard long_run share late; do
        check "no chain where a run is not stuck: $file" 0 \
            "$(told "$work/$file" | grep -c waits)"
    done
}

# Task 3, at the front, waits for 1; 1 and 2 wait for each other.
test_circle_behind_a_task() {
    table "$work/third" 1,0,5,0 6,8,1,1 9,0,0,0 6,9,1,2 9,0,0,0 8,8,0,0 \
        1,0,3,0 3,10,1,0 9,0,0,1 8,10,0,0 1,0,1,0 8,10,0,0
    check "a circle behind a third task" "spawned 1 0 2
spawned 1 0 3
waits 1 0 2
taken 2 0 0
waits 2 0 1
stuck 6
exit 3" "$(said -s "$work/third.state" "$work/third")"
    chain="press: task 3 waits for task 1
press: task 1 waits for task 2
press: task 2 waits for task 1
press: task 1 was named before: a circle"
    check "its chain" "$chain" "$(cat "$work/errors")"
    check "stuck again when resumed" "stuck 0
exit 3" "$(said -s "$work/third.state" "$work/third")"
    check "with the same chain" "$chain" "$(cat "$work/errors")"
}

# Each of 32 tasks waits for the one spawned before it, and main for the last.
test_longest_chain() {
    table "$work/circle" 1,0,9,0 3,8,1,0 9,0,0,1 5,0,5,0 11,4,2,0 10,8,0,0 \
        9,0,0,32 6,8,1,1 10,8,0,0 8,8,0,0 1,0,1,0 8,64,0,0
    check "a circle of 32 tasks" "press: task 2 waits for task 1
press: task 1 waits for task 32
$(awk 'BEGIN {
    for (task = 32; task > 2; task--)
        print "press: task " task " waits for task " task - 1
}')
press: task 2 was named before: a circle" "$(told "$work/circle")"
}

# longest FILE: a table of 4,096 procedures.
longest() {
    record 1 0 0 0 >"$1"
    while [ "$(wc -c <"$1")" -lt 32768 ]; do
        cat "$1" "$1" >"$1.twice"
        mv "$1.twice" "$1"
    done
}

# said_of COUNT FILE: what the host says of a batch that is one table over and
# over.
said_of() {
    count=$1
    file=$2
    shift 2
    while [ $# -lt "$count" ]; do
        set -- "$@" "$file"
    done
    said -c "$@"
}

# accepted COUNT FILE: that all are accepted.
accepted() {
    awk -v count="$1" -v line="$2: accepted" \
        'BEGIN { while (i++ < count) print line; print "exit 0" }'
}

test_batch() {
    check "a batch with refused tables" "$work/a: accepted
$work/bad: refused 14 1
$work/empty: refused 11 0
$work/c: accepted
$work/long: refused 11 0
$work/a: accepted
exit 1" "$(said -c "$work/a" "$work/bad" "$work/empty" "$work/c" \
        "$work/long" "$work/a")"

    longest "$work/most"
    for count in 1 64; do
        check "a batch of $count" "$(accepted $count "$work/most")" \
            "$(said_of $count "$work/most")"
    done
    for count in 65 66 200; do
        check "a batch of $count" "refused 26 0
exit 1" "$(said_of $count "$work/a")"
    done

    check "no table to check" "exit 2" "$(said -c)"
    check "a state with a batch" "exit 2" "$(said -c -s "$work/s" "$work/a")"
    check "slices with a batch" "exit 2" "$(said -c -n 1 "$work/a")"
    check "a batch with no such table" "exit 2" \
        "$(said -c "$work/a" "$work/nowhere" "$work/a")"
    check "which is told" 1 "$(grep -c "$work/nowhere" "$work/errors")"
}

test_trouble() {
    check "no table named" "exit 2" "$(said)"
    check "two tables named" "exit 2" "$(said "$work/a" "$work/a")"
    check "no slices" "exit 2" "$(said -n 0 "$work/a")"
    check "slices not a number" "exit 2" "$(said -n 1x "$work/a")"
    check "no such table" "exit 2" "$(said "$work/nowhere")"
    check "state is a folder" "exit 2" "$(said -s "$work" "$work/a")"
    check "no place for the state" "exit 2" \
        "$(said -s "$work/nowhere/state" "$work/a" | tail -n 1)"
}

# sampled PROGRAM TABLE: what the guide's sample host prints, and its exit status.
sampled() {
    "./$1" "$2" 2>&1
    echo "exit $?"
}

# The host that the guide shows. It ends on every recipe, also where it cannot
# get on.
test_sample() {
    recipes=../../recipes
    check "sample: row A" "valve 1 is 5
valve 0 is 1
finished
exit 0" "$(sampled sample $recipes/a.table)"
    table "$work/below" 1,0,2,0 3,2,1,0 9,0,0,-7
    check "sample: a value below 0" "valve 2 is -7
finished
exit 0" "$(sampled sample "$work/below")"
    check "sample: stuck" "waits: task 2
waits: task 3
waits: task 2
exit 1" "$(sampled sample $recipes/deadlock.table)"
    check "sample: no value" "exit 1" \
        "$(sampled sample $recipes/novalue.table | tail -n 1)"
    check "sample: tasks" "ended with 3 at record 0
exit 1" "$(sampled sample $recipes/f.table)"
    table "$work/cut" 1,0,1,0
    check "sample: refused" "refused 13 at record 0
exit 1" "$(sampled sample "$work/cut")"
    : >"$work/empty"
    check "sample: empty" "refused 11 at record 0
exit 1" "$(sampled sample "$work/empty")"
    check "sample: no such table" "exit 2" \
        "$(sampled sample "$work/nowhere" | tail -n 1)"
    check "sample: no room in the log" "the log has no room for one record
exit 1" "$(sampled sample_no_log $recipes/a.table)"
}

test_rows
test_sample
test_refused_table
test_refused_state
test_starters
test_damaged_starters
test_resume
test_sensor
test_optional
test_divisor
test_chains
test_circle_behind_a_task
test_longest_chain
test_batch
test_trouble
exit $failed
