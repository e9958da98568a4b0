# Sourced by tests/second, tests/run and tests/linked/run: a test is made of parts, each a command that is run and counted.
#
# A part prints its name, its result line and its seconds, after its output if it
# failed. One failed is added for a part that has no result line, passes nothing,
# ends with a status that its result line does not account for or takes more than
# 300 seconds.

passed=0 failed=0
logs=$(mktemp -d) || exit 1

# `timeout` makes a process group of its own for each part, so that the group's
# number is that of `running` and nothing of a part is left when it has ended.
running=
stop_part() {
    if [ -n "$running" ]; then
        kill -TERM "$running" 2>/dev/null
        wait "$running"
        kill -KILL -- "-$running" 2>/dev/null
    fi
}
stop() {
    stop_part
    rm -rf -- "$logs"
}
trap stop EXIT
trap 'exit 1' HUP INT TERM

# The result line of each kind of output, or nothing.
built() { echo built; }
last() { tail -n 1 -- "$1" | grep -xE '[0-9]+ passed, [0-9]+ failed'; }

# part NAME RESULT COMMAND..: runs it, prints its line and adds up its numbers;
# false if it failed.
part() {
    local name=$1 result=$2 out=$logs/$1.out err=$logs/$1.err
    local begin=${EPOCHREALTIME/[.,]/} status line why='' good=0 bad=0
    shift 2
    timeout -k 10 300 "$@" </dev/null >"$out" 2>"$err" &
    running=$!
    wait "$running"
    status=$?
    kill -KILL -- "-$running" 2>/dev/null
    running=
    line=$("$result" "$out")
    if [[ $line =~ ^([0-9]+)\ passed,\ ([0-9]+)\ failed$ ]]; then
        good=${BASH_REMATCH[1]} bad=${BASH_REMATCH[2]}
        [ $((good + bad)) -eq 0 ] && why='nothing was run'
    elif [ -z "$line" ]; then
        why='no result line'
    fi
    [ "$status" -ne 0 ] && [ "$bad" -eq 0 ] && why="ended with status $status"
    [ "$status" -eq 124 ] && why='did not end in 300 seconds'
    if [ -n "$why" ]; then
        bad=$((bad + 1))
        line="$good passed, $bad failed: $why"
    fi
    passed=$((passed + good)) failed=$((failed + bad))
    if [ "$bad" -gt 0 ]; then
        tail -n 60 -- "$out"
        tail -n 30 -- "$err"
    fi
    local tenths=$(((${EPOCHREALTIME/[.,]/} - begin) / 100000))
    printf '%-14s %s (%d.%d s)\n' "$name" "$line" $((tenths / 10)) $((tenths % 10))
    [ "$bad" -eq 0 ]
}

# not_run NAME..: parts that cannot be run are failed ones.
not_run() {
    local name
    for name in "$@"; do
        printf '%-14s 0 passed, 1 failed: not run\n' "$name"
        failed=$((failed + 1))
    done
}
