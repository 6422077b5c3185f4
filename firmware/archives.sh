#!/bin/sh
# Makes archives for controllers of the modules that module.sh kept: target/firmware/TARGET-VARIANT with libcxpi.a, its headers and origin.txt,
# which says where it comes from. Needs the Rattle kit and python3 alone.
# Run: sh firmware/archives.sh [TARGET-VARIANT].., by default both variants, small and fast, for every controller.
set -eu
cd "$(dirname "$0")/.."
. firmware/targets.sh
root=$PWD
out=$root/target/firmware
modules=$out/modules
clang=$toolchain/bin/clang

# What rattle tells clang, but for target, optimisation and position independence. By the inlining thresholds each call becomes one function: apart,
# plans and states would be copied from frame to frame, for twice the stack. The second is for what stands behind many refusals, which clang
# takes for cold. Every place is set to zero where a function begins, and mostly written whole before it is read: by the limits for dead stores
# clang sees that in functions of this length, for less than half of the stack.
common="-mllvm -inline-threshold=3000 -mllvm -inline-cold-callsite-threshold=3000 \
-mllvm -dse-memoryssa-scanlimit=100000 -mllvm -dse-memoryssa-walklimit=100000 \
-ffunction-sections -fdata-sections -mllvm -trap-unreachable -mllvm -no-trap-after-noreturn -mllvm -disable-machine-licm \
-mllvm -disable-postra-machine-licm -mllvm -sink-common-insts=false --no-default-config -no-canonical-prefixes -fintegrated-cc1 \
-fno-crash-diagnostics -Werror"

# origin TARGET-VARIANT FLAGS
origin() {
    cat << END
The C calls of cxpi.h, compiled from the LLVM modules of the proved build. The compilation is not proved, and is tested on an emulated Cortex-M0
and Cortex-M3.

$(for crate in $crates; do
    echo "verdict    $crate: $(cat "$modules/$crate.verdict")"
    echo "module     $crate: $(sha256sum < "$modules/$crate.bc" | cut -d ' ' -f 1)"
done)
kit        $(cat "$kit/KIT-ID")
compiler   $("$clang" --version | head -n 1)
flags      $2

Bytes of stack that a call takes at most, the C library's functions that it calls aside:
$(cat "$out/work/$1/stack")

SHA-256:
$(cd "$out/$1" && sha256sum cxpi.h cxpi_text.h libcxpi.a)
END
}

for crate in $crates; do
    [ -f "$modules/$crate.ll" ] || {
        echo "no module of $crate: run firmware/module.sh first" >&2
        exit 2
    }
done
if [ $# -eq 0 ]; then
    for target in $controllers; do set -- "$@" "$target-small" "$target-fast"; done
fi
for made; do
    variant=${made##*-}
    flags=$(clang_flags "${made%-*}")
    level=$(optimisation "$variant")
    work=$out/work/$made
    rm -rf "$work" "${out:?}/$made"
    mkdir -p "$work" "$out/$made"
    cp include/cxpi.h include/cxpi_text.h "$out/$made"
    (
        cd "$work"
        attributes=
        [ "$variant" = fast ] || attributes=optsize # in a module -Os is an attribute of its functions
        "$clang" $flags -S -emit-llvm -x c /dev/null -o target.ll
        for crate in $crates; do
            python3 "$root/firmware/retarget.py" "$modules/$crate.ll" "$root/include/cxpi.h" target.ll "$crate.ll" $attributes > "$crate.log"
            # By way of assembly, in which stack.py sees each call.
            "$clang" $flags $level $common -fstack-usage -S -x ir "$crate.ll" -o "$crate.s"
            "$clang" $flags -Werror -c "$crate.s" -o "$crate.o"
            "$toolchain/bin/llvm-ar" rcsD "$out/$made/libcxpi.a" "$crate.o"
            python3 "$root/firmware/stack.py" "$crate"
        done > stack
    )
    origin "$made" "$flags $level $common" > "$out/$made/origin.txt"
    echo "target/firmware/$made/libcxpi.a"
done
