#!/bin/sh
# Makes the archive of the C calls for x86-64, target/lib/libcxpi.a, of the objects of the static libraries cxpi_c, cxpi_batch_c and cxpi_why_c, which are proved as they
# are built, and keeps the LLVM modules that rattle hands to clang: target/firmware/modules, with the lines of the verdicts. archives.sh goes on from there.
#
# Usage: module.sh [BEGAN]. What has changed is proved by `rt lib`. But where rt ci made all libraries below a crate since the file BEGAN was written, those
# are taken: what rt ci leaves, `rt lib` would prove once more.
set -eu
cd "$(dirname "$0")/.."
. firmware/targets.sh
began=${1:-}
out=$PWD/target/firmware
modules=$out/modules
library=$PWD/target/lib
rm -rf "$modules" "$library"
mkdir -p "$modules" "$library"

# A folder of links to all that a folder has, but for one name: links FROM TO EXCEPT
links() {
    mkdir -p "$2"
    for each in "$1"/*; do
        [ "${each##*/}" = "$3" ] || ln -s "$each" "$2/"
    done
}

# A view of the toolchain in which clang is a script that keeps what it is given and then runs the kit's own. It goes at the end, however that
# comes: rt ci takes no folder with links in it.
view=$out/toolchain
rm -rf "$view"
trap 'rm -rf "$view"' EXIT
trap 'exit 1' HUP INT TERM
links "$toolchain" "$view" bin
links "$toolchain/bin" "$view/bin" clang
cat > "$view/bin/clang" << END_OF_SCRIPT
#!/bin/sh
# rattle calls this with an empty environment, in a folder that holds module.bc.
/bin/cp module.bc "$modules/module.bc"
/usr/bin/printf '%s\n' "\$@" > "$modules/module.flags"
exec "$toolchain/bin/clang" "\$@"
END_OF_SCRIPT
chmod +x "$view/bin/clang"

# Whether rt ci made each of these crates' libraries since it began: made CRATE..
made() {
    [ -n "$began" ] || return 1
    for each; do
        [ -n "$(find "crates/$each/out/rlib/$each.rlib" -maxdepth 0 -newer "$began" 2> /dev/null)" ] || return 1
    done
}

# Runs a command, and shows what it says where it fails.
say() {
    "$@" > "$out/log" 2>&1 || {
        cat "$out/log"
        exit 1
    }
}

# As `rt lib`, but with the view for a toolchain: build CRATE, of its libraries as they stand.
build() {
    name=$1 below=$(sh tools/below "$1") own=$(sed -n "s/^$1 staticlib://p" crates.txt)
    cd "crates/$name"
    set -- --crate-name "$name" src/lib.rt --crate-type staticlib --extern "std=$kit/rlibs/std.rlib" -L "dependency=$kit/rlibs"
    for each in $own; do set -- "$@" --extern "$each=../$each/out/rlib/$each.rlib"; done
    for each in $below; do set -- "$@" -L "dependency=../$each/out/rlib"; done
    say "$kit/bin/rattle" build "$@" --antt-project "$kit/rattle/logic/antt-project.json" --logic-built "$kit/logic_built" \
        --toolchain "$view" --backend llvm -o "$modules/lib$name.a"
    cd ../..
}

# keep CRATE
keep() {
    by_rt=
    made $(sh tools/below "$1_c") || by_rt=crates/$1_c/out/lib$1_c.a
    [ -z "$by_rt" ] || (cd "crates/$1_c" && say rt lib)
    build "$1_c"
    grep '^logic=proved ' "$out/log" | tail -n 1 > "$modules/$1.verdict"
    [ -z "$by_rt" ] || cmp "$by_rt" "$modules/lib$1_c.a"
    cd "$modules"
    mv module.bc "$1.bc"
    "$toolchain/bin/clang" -x ir "$1.bc" -S -emit-llvm -O0 -Xclang -disable-llvm-passes -o "$1.ll"
    # The text is all of the module: by rattle's own flags it gives the object in the archive, byte by byte.
    crate=$1
    shift
    while IFS= read -r flag; do
        [ "$flag" != module.bc ] || flag=$crate.ll
        [ "$flag" != module.o ] || flag=$crate.o
        set -- "$@" "$flag"
    done < module.flags
    "$toolchain/bin/clang" "$@"
    "$toolchain/bin/llvm-ar" p "lib${crate}_c.a" | cmp - "$crate.o"
    "$toolchain/bin/llvm-ar" rcsD "$library/libcxpi.a" "$crate.o"
    cd ../../..
}

for crate in $crates; do keep "$crate"; done
