#!/bin/sh
# The gate: the verdict of rt ci, which also judges the layout, then the C tests on what it built. Shows a line for each crate, edit, program and test, and
# whole what fails; target/ci.log and target/tests keep all that was said. The verdict's line is the last one printed, and is printed only
# where everything passed and no must-fail edit is bad.
#
# Usage: run.sh RT C_TESTS, in the repository's folder: the command rt and the script of the C tests (their stand-ins, in check.sh).
set -eu
rt=$1
c_tests=$2
here=$(dirname "$0")

mkdir -p target
echo 1 > target/ci.status
# What rt ci makes is newer than this file.
: > target/ci.began
# A pipe has the status of its last command alone, so that of rt ci goes through a file; without the file it did not end by itself.
{
    status=0
    "$rt" ci 2>&1 || status=$?
    echo "$status" > target/ci.status
} | tee target/ci.log | python3 "$here/lines.py"
verdict=$(tail -n 1 target/ci.log)
status=$(cat target/ci.status 2> /dev/null || echo 1)
if [ "$status" -ne 0 ] || ! expr "$verdict" : '[0-9][0-9]* passed, 0 failed$' > /dev/null; then
    echo "rt ci: status $status, \"$verdict\"; see target/ci.log" >&2
    exit 1
fi
# An edit that cannot be applied or read fails nothing in rt ci, and shows nothing.
ok=$(grep '^rt: ok;' target/ci.log || :)
if [ -z "$ok" ] || expr "$ok" : '.*, [1-9][0-9]* bad' > /dev/null; then
    echo "rt ci: bad must-fail edits, or no line 'rt: ok': \"$ok\"; see target/ci.log" >&2
    exit 1
fi

sh "$c_tests" target/ci.began
echo "$verdict"
