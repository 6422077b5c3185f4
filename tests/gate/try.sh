# Tests by name, for the scripts that source this file at the repository's root under set -e: a line for each, its whole output in target/tests.

# Runs a command or a function, in a subshell: one line with its seconds, its name and the last line of its output; where it fails, all of
# the output, and the script ends: try NAME COMMAND [ARGUMENT]..
try() {
    name=$1 log=target/tests/$1.log began=$(date +%s)
    shift
    mkdir -p target/tests
    # In a condition set -e would be off, and a function would go on after a command that failed.
    set +e
    (
        set -e
        "$@"
    ) > "$log" 2>&1
    status=$?
    set -e
    seconds=$(($(date +%s) - began))
    if [ $status -ne 0 ]; then
        printf '%5d s  %s FAILED, status %d:\n%s\n' $seconds "$name" $status "$(cat "$log")"
        exit 1
    fi
    line=$(tail -n 1 "$log")
    printf '%5d s  %s\n' $seconds "$name${line:+: ${line#"$name: "}}"
}

# Runs two lists of tests at once, each a function that calls try, and ends the script where one of them failed: both FIRST SECOND
both() {
    "$1" &
    first=$!
    "$2" &
    second=$!
    # What runs behind does not see the keyboard's interrupt.
    trap 'kill $first $second; exit 130' INT TERM
    failed=
    wait $first || failed=yes
    wait $second || failed=yes
    trap - INT TERM
    [ -z "$failed" ] || {
        echo "a test FAILED, see above"
        exit 1
    }
}
