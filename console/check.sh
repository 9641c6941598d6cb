#!/bin/sh
# Builds the static library and the C programs, and runs every case of the console's call, also under
# the address and undefined-behaviour sanitizers. Ends with a count, and not with 0 if anything failed.
set -u
here=$(cd "$(dirname "$0")" && pwd) || exit 2
root=$(dirname "$here")
build=$here/build
library=$root/target/staticlib/libconsole.a
warnings="-std=c11 -D_DEFAULT_SOURCE -Wall -Wextra -Wpedantic -Werror"
sanitizers="-fsanitize=address,undefined -fno-sanitize-recover=all -g"
passed=0
failed=0

# run NAME COMMAND..: one step; its output is shown where it fails
run() {
    name=$1
    shift
    if "$@" >"$build/step.log" 2>&1; then
        passed=$((passed + 1))
        echo "console: $name: passed"
    else
        failed=$((failed + 1))
        echo "console: $name: FAILED"
        cat "$build/step.log"
    fi
}

# group NAME COMMAND..: a program that prints its groups and ends with its count
group() {
    name=$1
    shift
    "$@" >"$build/group.log" 2>&1
    status=$?
    sed "s/^  /console: $name: /" "$build/group.log" | grep -v '^cases: '
    set -- $(sed -n 's/^cases: \([0-9]*\) passed, \([0-9]*\) failed$/\1 \2/p' "$build/group.log")
    passed=$((passed + ${1:-0}))
    failed=$((failed + ${2:-0}))
    if [ "$status" -ne 0 ] && [ "${2:-0}" -eq 0 ]; then
        failed=$((failed + 1))
        echo "console: $name: FAILED with status $status"
    fi
}

# asks PROGRAM STATUS TEXT ARGUMENTS..: what the example prints, on either stream, and its status
asks() {
    program=$1
    wanted=$2
    text=$3
    shift 3
    got=$(cd "$build/images" && "$program" "$@" 2>&1)
    status=$?
    if [ "$status" -eq "$wanted" ] && [ "$got" = "$text" ]; then
        asked=$((asked + 1))
    else
        wrong=$((wrong + 1))
        echo "console: gate_console $*: status $status, '$got'; expected $wanted, '$text'"
    fi
}

# example NAME PROGRAM: the example on an image of each kind and on each refusal
example() {
    asked=0
    wrong=0
    asks "$2" 0 'day 0 07:50' printed.img 0 0
    asks "$2" 0 'day 0 08:00' printed.img 0 471
    asks "$2" 0 'day 1 07:50' printed.img 0 481
    asks "$2" 0 'day 0 08:25' printed.img 1 0
    asks "$2" 0 'day 1 08:25' printed.img 1 516
    asks "$2" 0 'day 0 23:50' printed.img 2 1430
    asks "$2" 0 'day 1 23:50' printed.img 2 1439
    asks "$2" 0 'day 0 06:15' clock.img 0 361
    asks "$2" 0 'day 1 06:00' clock.img 0 1051
    asks "$2" 0 'day 0 23:59' clock.img 1 1439
    asks "$2" 0 'day 0 00:00' largest.img 0 0
    asks "$2" 255 'gate_console: no sailing leaves this quay (255)' printed.img 3 0
    asks "$2" 255 'gate_console: no sailing leaves this quay (255)' clock.img 2 0
    asks "$2" 1 'gate_console: the image is cut off (1)' cut.img 0 0
    asks "$2" 1 'gate_console: the image is cut off (1)' /dev/null 0 0
    asks "$2" 2 'gate_console: the image has a record that is not due (2)' kind.img 0 0
    asks "$2" 3 'gate_console: the image has a field out of its limits (3)' change.img 0 0
    asks "$2" 4 'gate_console: the image has sailings that do not stand by quay (4)' order.img 0 0
    asks "$2" 5 'gate_console: the image has bytes after its last record (5)' longer.img 0 0
    asks "$2" 6 'gate_console: the image has a series that leaves the day, the runs or the places (6)' series.img 0 0
    asks "$2" 11 'gate_console: the book has no such quay (11)' printed.img 4 0
    asks "$2" 12 'gate_console: a minute of the day is at most 1439 (12)' printed.img 0 1440
    asks "$2" 64 'usage: gate_console IMAGE QUAY MINUTE' printed.img 0
    asks "$2" 64 'usage: gate_console IMAGE QUAY MINUTE' printed.img 0 -1
    asks "$2" 64 'usage: gate_console IMAGE QUAY MINUTE' printed.img 65536 0
    asks "$2" 64 'usage: gate_console IMAGE QUAY MINUTE' printed.img '' 0
    asks "$2" 66 'gate_console: nowhere.img cannot be opened' nowhere.img 0 0
    asks "$2" 66 'gate_console: . cannot be read' . 0 0
    echo "console: $1: $asked passed, $wrong failed"
    passed=$((passed + asked))
    failed=$((failed + wrong))
}

ended() {
    echo "console: $passed passed, $failed failed"
    [ "$failed" -eq 0 ]
    exit
}

# The library calls nothing that it does not hold, an allocator least of all.
stands_alone() {
    missing=$(nm -u "$library" | grep ' U ')
    [ -z "$missing" ] || { echo "$missing"; return 1; }
}

rm -rf "$build"
mkdir -p "$build/images" || exit 2
rm -f "$library"
mkdir -p "$(dirname "$library")" || exit 2
run "static library" sh -c "cd '$root/crates/console_c' && rt lib && cp out/libconsole_c.a '$library' && test -s '$library'"
[ "$failed" -eq 0 ] || ended
run "library stands alone" stands_alone
run "example builds" gcc $warnings -O2 -o "$build/gate_console" "$here/gate_console.c" "$library"
run "cases build" gcc $warnings -O2 -o "$build/cases" "$here/cases.c" "$library"
run "example builds, sanitized" gcc $warnings -O1 $sanitizers -o "$build/gate_console_sanitized" "$here/gate_console.c" "$library"
run "cases build, sanitized" gcc $warnings -O1 $sanitizers -o "$build/cases_sanitized" "$here/cases.c" "$library"
[ "$failed" -eq 0 ] || ended
run "images" "$build/cases" "$build/images"
group "cases" "$build/cases"
group "sanitized" "$build/cases_sanitized"
example "example" "$build/gate_console"
example "example, sanitized" "$build/gate_console_sanitized"
group "time of a call" "$build/cases" time
ended
