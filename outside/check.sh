#!/bin/sh
# Runs bindbook and canalroute from outside and judges every answer by a model of the rules in Python.
# Ends with a count, and not with 0 if anything failed.
set -u
here=$(cd "$(dirname "$0")" && pwd) || exit 2
root=$(dirname "$here")

# tens of thousands of small files are written: in memory, where that can be had
room=$(mktemp -d -p /dev/shm 2>/dev/null || mktemp -d) || exit 2
trap 'rm -rf "$room"' EXIT
trap 'exit 2' HUP INT TERM

# proves and builds the two programs, unless that was done of these very sources. `rt run` runs them, too, with nothing to do
mkdir "$room/bin" || exit 2
for program in bindbook canalroute; do
    (cd "$root/crates/$program" && rm -f "out/$program" && rt run </dev/null) >"$room/build.log" 2>&1
    cp "$root/crates/$program/out/$program" "$room/bin/" 2>/dev/null || {
        tail -n 20 "$room/build.log"
        echo "outside: $program does not build"
        exit 1
    }
done

PYTHONDONTWRITEBYTECODE=1 python3 "$here/check.py" "$room/bin" "$room"
