#!/bin/sh
# The exports against hand-written C of the same rules by gcc -O2 and, where clang is present, by clang -O3; and the drill against an
# independent one. Same inputs, best of nine runs.
set -eu
cd "$(dirname "$0")/../.."
out=target/c
independent=tests/independent
flags="-std=c11 -Wall -Wextra -Werror -pedantic -Iinclude -I$independent"
mkdir -p $out
# Its archive's members are those of a plain `rt lib`: module.sh compares them.
sh firmware/module.sh
sh tools/prove drill

# The benchmark's programs over C by a compiler, its check by products and by the sheet: bench_by COMPILER OPTIMISATION.
bench_by() {
    bench_of $1 $1 $2
    bench_of $1_sheet $1 $2 -DCHECK_BY_SHEET
}

# bench_of NAME COMPILER WORDS..
bench_of() {
    name=$1 compiler=$2
    shift 2
    for part in big_plan reference_packed reference; do
        $compiler $flags "$@" -c $independent/$part.c -o $out/${name}_$part.o
    done
    gcc $flags -O2 tests/c/bench.c $out/${name}_big_plan.o $out/${name}_reference_packed.o $out/${name}_reference.o target/lib/libcxpi.a \
        -o $out/bench_$name
}

gcc="gcc $(gcc -dumpversion) -O2"
bench_by gcc -O2
set -- $out/bench_gcc "$gcc"
if command -v clang > /dev/null; then
    clang="clang $(clang -dumpversion) -O3"
    bench_by clang -O3
    set -- "$@" $out/bench_clang "$clang"
else
    clang=
    echo "no clang here: C by gcc alone"
fi
python3 tests/c/bench.py cxpi "$@"
echo "reading a set, C's check by products and by the sheet:"
set -- "$@" $out/bench_gcc_sheet "$gcc, by the sheet"
[ -z "$clang" ] || set -- "$@" $out/bench_clang_sheet "$clang, by the sheet"
python3 tests/c/bench.py cxpi_read "$@"

gcc $flags -O2 $independent/make_set.c $independent/big_plan.c $independent/reference.c -o $out/make_set
gcc $flags -O2 $independent/drill.c $independent/reference.c -o $out/reference_drill
$out/make_set > $out/plan.set
python3 $independent/make_drill.py $out/plan.set 1000000 1 > $out/moves
python3 $independent/time_drills.py $out ../bin/drill ./reference_drill
(cd $out && ulimit -v 16384 && ../bin/drill < moves > lines)
echo "the drill's moves also run within 16 MiB of address space"
