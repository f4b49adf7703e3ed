#!/bin/bash
# Counts the instructions of the program for each job of jobs.py, and prints them by byte read and written.
# Takes the program's path; without one, the proved program of these sources, which .ci/run leaves.
# Ends with 1, and says so, where the program doesn't answer as it should.
here=$(cd "$(dirname "$0")" && pwd) || exit 1

stop() {
    echo "measure.sh: $1" >&2
    exit 1
}

if [ $# -gt 0 ]; then
    [ $# = 1 ] && [ -f "$1" ] && [ -x "$1" ] || stop "it takes one word at most, the path of a program"
    program=$(readlink -f "$1") || stop "$1 isn't found"
else
    program=$("$here/../.ci/program-path") || stop "the sources can't be read"
    [ -x "$program" ] || stop "these sources have no proved program yet: .ci/run makes one"
fi
[ "$("$program" < /dev/null)" = "fenix: bad words" ] || stop "$program isn't fenix"
command -v valgrind > /dev/null || stop "valgrind is missing: apt-get install -y valgrind"
jobs=$(mktemp -d) || exit 1
trap 'rm -rf "$jobs"' EXIT
python3 "$here/jobs.py" "$jobs" || stop "the jobs can't be made"

# Counts one run, which must end with the status $1: the instructions go to $count, what it wrote to $jobs/out.
measure() {
    local wanted=$1 status
    shift
    valgrind --tool=callgrind --callgrind-out-file=/dev/null "$program" "$@" > "$jobs/out" 2> "$jobs/log"
    status=$?
    count=$(sed -n 's/^.*Collected *: *\([0-9][0-9]*\).*$/\1/p' "$jobs/log")
    [ "$status" = "$wanted" ] && [ -n "$count" ] || {
        cat "$jobs/log" >&2
        stop "a run ended with $status, and not with $wanted, or wasn't counted"
    }
}

measure 2 < /dev/null
echo "start alone: $count instructions"
printf '%-38s %9s %10s %13s %8s\n' job read written instructions 'per byte'
for file in "$jobs"/*.job; do
    name=$(basename "$file" .job)
    case $name in
    check_*) modes=check ;;
    plain_* | events_* | losses_*) modes='run wire' ;;
    barriers_16_2000) modes=run ;;
    barriers_* | calls_*) modes='run wire' ;;
    *) modes=run ;;
    esac
    for mode in $modes; do
        measure "$(cat "$jobs/$name.status")" "$mode" < "$file"
        read=$(stat -c %s "$file")
        written=$(stat -c %s "$jobs/out")
        label=$name
        [ "$mode" = wire ] && label="$name, wire"
        awk -v name="$label" -v read="$read" -v written="$written" -v count="$count" \
            'BEGIN { printf "%-38s %9d %10d %13d %8.1f\n", name, read, written, count, count / (read + written) }'
    done
done
