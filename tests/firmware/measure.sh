#!/bin/sh
# Instructions, stack and size of the calls on emulated controllers, beside the independent implementation by the same compiler at the same
# optimisation. Takes the modules that firmware/module.sh kept.
set -eu
cd "$(dirname "$0")/../.."
. firmware/targets.sh
. tests/firmware/boards.sh
out=target/firmware
independent=tests/independent
targets="cortex-m0plus cortex-m3"

if ! can_test cortex-m3; then
    echo "no emulated controllers here, for want of $(packages_of cortex-m3)"
    exit 0
fi
# The C library's headers, and enums as arm-none-eabi-gcc has them.
headers="-fshort-enums -nostdlibinc -isystem $(arm-none-eabi-gcc -print-file-name=include) -isystem /usr/lib/picolibc/arm-none-eabi/include"

# Bytes of code and constants that a linker keeps for the calls: size_of PREFIX FILE..
size_of() {
    roots=$(sed "s/^/-u $1/" $out/calls)
    shift
    arm-none-eabi-ld -r --gc-sections $roots -o $out/kept.o "$@"
    arm-none-eabi-size -A $out/kept.o | awk '/^\.(text|rodata)/ { sum += $2 } END { print sum }'
}

# measure TARGET VARIANT
measure() {
    archive=$out/$1-$2/libcxpi.a work=$out/work/$1-$2
    strict=$(strict_board_of "$1")
    sh firmware/archives.sh "$1-$2" > $out/log
    for part in reference reference_packed; do
        "$toolchain/bin/clang" $(clang_flags "$1") $(optimisation "$2") -std=c11 $headers -Iinclude -ffunction-sections -fdata-sections \
            -c $independent/$part.c -o "$work/$part.o"
    done
    $(compiler_for "$1" "$strict") -std=c11 -O2 -Wall -Wextra -Werror -Iinclude -Itests/c -I$independent -ffunction-sections -Wl,--gc-sections \
        tests/firmware/measure.c $independent/big_plan.c "$work/reference.o" "$work/reference_packed.o" "$archive" -o "$work/measure"
    # An instruction takes 128 ns or 64 ns, so that the boards' counters go on in each.
    shift=6
    [ "$1" != cortex-m0plus ] || shift=7
    EMULATOR_FLAGS="-icount shift=$shift" run_on "$strict" "$work/measure" > "$work/measured" || {
        cat "$work/measured"
        exit 1
    }
    {
        optimisation "$2"
        for crate in $crates; do
            nm -g --defined-only "$work/$crate.o" | awk 'NF == 3 { print $3 }' > $out/calls
            echo "$crate $(size_of "" "$archive") $(size_of reference_ "$work/reference.o" "$work/reference_packed.o")"
        done
    } > "$work/sizes"
}

for target in $targets; do
    measure "$target" fast
    measure "$target" small
done
python3 tests/firmware/measure.py $out/work $targets
