#!/bin/sh
# Calls show, drill, why and replay as people do, rightly and wrongly, with input that can't be read and output that can't be written, and
# compares what each says, `>` on standard output and `!` on standard error, with the text that tests/programs has of it.
# Run: sh tests/programs/run.sh [FOLDER OF THE PROGRAMS]
set -eu
programs=$(realpath "${1:-$(dirname "$0")/../../target/bin}")
cd "$(dirname "$0")/../.."
wanted=$PWD/tests/programs
work=$(mktemp -d)
trap 'rm -rf "$work"' EXIT

mkdir "$work/sets" "$work/sets/folder" "$work/none"
cp examples/set-t/plan.set "$work/sets"
cp crates/test_drills/data/f.set "$work/sets/two.set"
cp crates/test_drills/data/f.set "$work/sets/-two.set"
cp crates/test_drills/data/check.set "$work/sets"
: > "$work/sets/empty.set"
head -c 1023 examples/set-t/plan.set > "$work/sets/short.set"
printf 'wake 0\ntick\n' > "$work/moves"
head -c 32 examples/recording/moves > "$work/recording"
# ticks for more than two reads
yes tick | head -n 500 > "$work/many-moves"
head -c 32000 /dev/zero > "$work/many-recording"

# Runs a program in a folder and prints the call and what it said: in_folder FOLDER INPUT OUTPUT [ARGUMENT]..
in_folder() {
    folder=$1 input=$2 output=$3
    shift 3
    printf %s $program
    for argument; do printf ' %s' "${argument:-''}"; done
    echo "${note:+, $note}"
    # Their status is always 0: any other ends this.
    (cd "$work/$folder" && "$programs/$program" "$@" < "$input" > "$output" 2> "$work/error")
    if [ "$output" = "$work/output" ]; then sed 's/^/> /' "$output"; fi
    sed 's/^/! /' "$work/error"
}

call() {
    in_folder sets "$work/$moves" "$work/output" "$@"
}

calls() {
    note=
    call
    call two.set
    call ./-two.set
    call --help
    # wrong
    call two.set plan.set
    call --help two.set
    call --hel
    call -h
    call -two.set
    call --
    call ''
    # files
    call missing.set
    call folder
    call folder/two.set
    call empty.set
    call short.set
    call check.set
    note='without plan.set'
    in_folder none "$work/$moves" "$work/output"
    # streams
    note='to a full device'
    in_folder sets "$work/many-$moves" /dev/full
    in_folder sets "$work/$moves" /dev/full --help
    in_folder sets "$work/$moves" /dev/full missing.set
    in_folder sets "$work/$moves" /dev/full check.set
    note='from a folder'
    in_folder sets . "$work/output"
}

for program in show drill why replay; do
    moves=moves
    if [ $program = replay ]; then moves=recording; fi
    calls > "$work/said"
    if ! diff "$wanted/$program" "$work/said"; then
        echo "$program says something else than tests/programs/$program"
        exit 1
    fi
done
echo "four programs, 23 calls each: as tests/programs has it"
