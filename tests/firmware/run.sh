#!/bin/sh
# Tests the archives for controllers: what retarget.py must refuse and take; each archive's origin and the stack of its calls; the C tests
# with 32-bit pointers, on this machine and on emulated boards, every lent buffer at an odd address. What cannot run for want of packages is
# left out, and the last line says so. Takes the modules that firmware/module.sh kept. Run: sh tests/firmware/run.sh [TARGET-VARIANT]..
set -eu
cd "$(dirname "$0")/../.."
. firmware/targets.sh
. tests/firmware/boards.sh
. tests/gate/try.sh
stack_bound=1600 # bytes that a call may take on a controller
out=target/firmware
independent=tests/independent
reference="$independent/reference_packed.c $independent/reference.c"
flags="-std=c11 -O2 -Wall -Wextra -Werror -pedantic -DLENT_GUARD=33 -Iinclude -I$independent"

retarget() {
    for crate in $crates; do python3 tests/firmware/retarget_test.py $out/modules/$crate.ll include/cxpi.h; done
}

archives() {
    sh firmware/archives.sh > $out/made
    most=0
    for made in $(cut -d / -f 3 $out/made); do
        (cd $out/"$made" && grep -E '^[0-9a-f]{64} ' origin.txt | sha256sum --check --strict --quiet)
        for crate in $crates; do
            grep -q "^verdict  *$crate: logic=proved " $out/"$made"/origin.txt
            python3 firmware/stack.py $out/work/"$made"/$crate $stack_bound > $out/log
            most=$(awk -v most="$most" '/^cxpi_/ && $2 > most { most = $2 } END { print most }' $out/log)
        done
    done
    echo "$(wc -l < $out/made) archives for controllers; a call takes $most bytes of stack at most, $stack_bound are allowed"
}

try install sh tests/firmware/install_test.sh
try retarget retarget
try stack python3 tests/firmware/stack_test.py
try archives archives

# The C tests of the archive $made, on the boards $roomy and $strict.
symbols() {
    sh tests/c/symbols.sh "$archive" include/cxpi.h
}

exports() {
    $(compiler_for "${made%-*}" "$strict") $flags tests/c/exports.c "$archive" -o "$work/exports"
    run_on "$strict" "$work/exports" examples/set-t/plan.set
}

firmware() {
    $(compiler_for "${made%-*}" "$strict") $flags examples/firmware/main.c "$archive" -o "$work/firmware"
    for set in "" examples/set-t/plan.set; do
        run_on "$strict" "$work/firmware" $set > $out/log || {
            cat $out/log
            exit 1
        }
        cmp $out/log examples/firmware/stdout
    done
}

compare() {
    $(compiler_for "${made%-*}" "$roomy") $flags tests/c/compare.c $reference "$archive" -o "$work/compare"
    run_on "$roomy" "$work/compare" 1000000 20000 1
}

configuration() {
    $(compiler_for "${made%-*}" "$roomy") $flags tests/c/compare_configuration.c $independent/configuration.c "$archive" -o "$work/compare_configuration"
    run_on "$roomy" "$work/compare_configuration" 200000 2
}

left_out=
for made in ${*:-i386-fast cortex-m0plus-small cortex-m3-fast}; do
    if can_test "${made%-*}"; then
        [ "${made%-*}" != i386 ] || try archive_"$made" sh firmware/archives.sh "$made" # no controller
        archive=$out/$made/libcxpi.a work=$out/work/$made
        roomy=$(board_of "${made%-*}") strict=$(strict_board_of "${made%-*}")
        for test in symbols exports firmware compare configuration; do
            try ${test}_"$made" $test
        done
    else
        left_out="$left_out $made ($(packages_of "${made%-*}"))"
    fi
done
[ -z "$left_out" ] || left_out=", left out for want of packages:$left_out"
echo "the archives for controllers pass$left_out"
