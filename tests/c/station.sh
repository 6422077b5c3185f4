#!/bin/sh
# Runs a flashing station's check on sets that are right, of another revision than the approved one, of mixed revisions and damaged, on
# files that can't be read, and wrongly called. Prints each call, what it said and its status.
# Run: sh tests/c/station.sh STATION | cmp - examples/station/stdout
set -eu
station=$(realpath "$1")
cd "$(dirname "$0")/../../crates/test_sets/data"

try() {
    printf station
    for argument; do printf ' %s' "${argument:-''}"; done
    echo
    status=0
    "$station" "$@" 2>&1 || status=$?
    echo "status $status"
}

# right
try t.set
try t.set 7
try full.set 65535
# of another revision than the approved one
try t.set 8
try full.set 7
# of mixed revisions
try other_revision.set
try other_revision.set 7
try other_revision_second.set
# damaged
try empty.set
try short_by_one.set
try long_by_one.set
try check_of_rows.set
try check_of_plan.set 7
try type_of_plan.set
try time_zero.set
try same_address.set
try falling_over_blocks.set
try node_publishes_nothing.set
try filler_509.set
# files that can't be read
try missing.set
try missing.set 7
try .
# wrong calls
try
try t.set 7 7
for revision in "" 0 07 7x -7 65536 4294967303; do
    try t.set "$revision"
done
