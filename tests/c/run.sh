#!/bin/sh
# Runs two lists of tests at once. One is of the C calls, against the archive that it builds: each export under sanitizers, the comparisons
# with the independent implementation, the headers and the symbols, the firmware and the station example, the archives for controllers; by
# gcc, and by clang where it is present. The other is of the documents and their links, held to the repository, of the stored cases, by
# mutations of the code, and of the programs: how they are called, the drill, the explanation and the replay of recorded moves against
# independent ones, the drill's picture. A line for each test; target/tests has what it said.
#
# Usage: run.sh [SINCE]. What has changed is proved and built first. But where rt ci passed since the file SINCE was written, what it built is taken.
set -eu
since=${1:-}
case $since in "" | /*) ;; *) since=$PWD/$since ;; esac
cd "$(dirname "$0")/../.."
. tests/gate/try.sh
out=target/c
archive=target/lib/libcxpi.a
independent=tests/independent
reference="$independent/reference_packed.c $independent/reference.c"
flags="-std=c11 -Wall -Wextra -Werror -pedantic"
checked="-O1 -g -fsanitize=address,undefined -fno-sanitize-recover=all"
mkdir -p $out

# The tests under sanitizers, of a compiler.
exports() {
    $1 $flags $checked -Iinclude tests/c/exports.c $archive -o $out/exports
    $out/exports examples/set-t/plan.set
}

compare() {
    $1 $flags $checked -Iinclude -I$independent tests/c/compare.c $reference $archive -o $out/compare_checked
    $out/compare_checked 1000000 100000 2
}

configuration() {
    $1 $flags $checked -Iinclude -I$independent tests/c/compare_configuration.c $independent/configuration.c $archive -o $out/compare_configuration
    $out/compare_configuration
}

firmware() {
    $1 $flags $checked -Iinclude examples/firmware/main.c $archive -o $out/firmware
    $out/firmware | cmp - examples/firmware/stdout
    $out/firmware examples/set-t/plan.set | cmp - examples/firmware/stdout
}

station() {
    $1 $flags $checked -Iinclude examples/station/station.c $archive -o $out/station
    sh tests/c/station.sh $out/station | cmp - examples/station/stdout
}

compare_long() {
    gcc $flags -O2 -Iinclude -I$independent tests/c/compare.c $reference $archive -o $out/compare
    $out/compare
}

test_calls() {
    # The crates of C calls are proved with their archive; their modules are kept for the controllers.
    try archive sh firmware/module.sh ${since:+"$since"}
    try symbols sh tests/c/symbols.sh $archive include/cxpi.h
    echo 'int main(void) { return 0; }' > $out/probe.c
    for compiler in gcc clang; do
        # gcc is needed, clang may be missing, or its sanitizers
        if [ $compiler = clang ] && ! $compiler $checked $out/probe.c -o $out/probe 2> /dev/null; then
            echo "no clang with sanitizers here"
            continue
        fi
        for test in exports compare configuration firmware station; do
            try ${test}_$compiler $test $compiler
        done
    done
    try header sh tests/c/header.sh
    try compare compare_long
    # The same calls for controllers.
    sh tests/firmware/run.sh
}

# The drill against the independent one: long lists, plain and with odd lines, over both profiles.
stored_drills() {
    gcc $flags -O2 $independent/drill.c $independent/reference.c -o $out/reference_drill
    python3 $independent/compare_drills.py crates/test_drills $out/reference_drill
}

random_drills() {
    gcc $flags -O2 $independent/make_set.c $independent/big_plan.c $independent/reference.c -o $out/make_set
    for profile in "" profile; do
        $out/make_set $profile > $out/plan.set
        for seed in 1 2 3; do
            for kind in "" odd; do
                python3 $independent/make_drill.py $out/plan.set 100000 $seed $kind > $out/moves
                (cd $out && ./reference_drill < moves > wanted && ../bin/drill < moves | cmp - wanted)
            done
        done
    done
    echo "1200000 lines, over both profiles, as the independent drill prints them"
}

recording() {
    cd examples/recording
    ../../target/bin/replay < moves | cmp - stdout
}

test_documents() {
    for document in trace conformance requirements links limits; do
        try $document python3 tests/docs/check_$document.py
        try ${document}_test python3 tests/docs/check_${document}_test.py
    done
}

test_programs() {
    # The stored cases refuse wrong code: the outputs that rt ci compared hold the rules.
    try mutations_test python3 tests/mutations/run_test.py
    try mutations python3 tests/mutations/run.py
    try programs_arguments sh tests/programs/run.sh
    # The independent drill, by the moves of R6.7; the drill's lines as a picture.
    try independent_drill sh $independent/check_drill.sh
    try picture python3 tests/picture/check.py
    try stored_drills stored_drills
    try random_drills random_drills
    # The line why: the independent program by cases worked out by hand and by faults that must be found; then the product by the same
    # cases, and against it on as many lines as the drill, in short lists.
    try why_faults sh tests/why/faults.sh
    try why_cases python3 tests/why/check.py target/bin/why
    try why python3 tests/why/compare.py target/bin/why "$out/reference_drill why"
    # Recorded moves: the independent bus by lists worked out by hand and by faults that must be found; then the product by the same lists,
    # by the example recording, and against it on two million random moves.
    try replay_faults sh $independent/check_replay.sh
    try replay_cases python3 $independent/check_replay.py target/bin/replay target/bin/test_states
    try recording recording
    try replay sh $independent/compare_moves.sh target/bin/replay target/bin/test_states
}

test_documents_and_programs() {
    test_documents
    test_programs
}

# The programs, in target/bin. rt ci leaves them in the folders of their crates.
programs() {
    mkdir -p target/bin
    for program in drill why replay test_states show; do
        if [ -n "$since" ]; then
            find crates/$program/out/$program -newer "$since" | grep -q . || { echo "rt ci did not build $program"; exit 1; }
            cp crates/$program/out/$program target/bin
        else
            sh tools/prove $program
        fi
    done
    echo "five programs, target/bin"
}

try programs programs
both test_calls test_documents_and_programs
