# What archives are made of and for, for the scripts that source this file, and what the kit's clang is told.

# The crates of C calls: each is a member of the archive by itself, so that a host links what it calls. The static library NAME_c exports the calls
# of the crate NAME.
crates="cxpi cxpi_batch cxpi_why"

controllers="cortex-m0plus cortex-m3 cortex-m4 cortex-m4f rv32imac"

# clang_flags TARGET
clang_flags() {
    case $1 in
    cortex-m0plus) echo "--target=thumbv6m-none-eabi -mcpu=cortex-m0plus" ;;
    cortex-m3) echo "--target=thumbv7m-none-eabi -mcpu=cortex-m3" ;;
    cortex-m4) echo "--target=thumbv7em-none-eabi -mcpu=cortex-m4 -mfloat-abi=soft" ;;
    # No float is used: the code is that of cortex-m4, but a linker takes only the one or the other.
    cortex-m4f) echo "--target=thumbv7em-none-eabihf -mcpu=cortex-m4 -mfloat-abi=hard" ;;
    rv32imac) echo "--target=riscv32-unknown-elf -march=rv32imac -mabi=ilp32" ;;
    # No controller: 32-bit pointers at the speed of the machine that tests them.
    i386) echo "--target=i386-unknown-linux-gnu -march=i686 -fPIC" ;;
    *)
        echo "no target $1: there are $controllers i386" >&2
        return 2
        ;;
    esac
}

# optimisation VARIANT
optimisation() {
    case $1 in
    small) echo -Os ;;
    fast) echo -O3 ;;
    *)
        echo "no variant $1: there are small and fast" >&2
        return 2
        ;;
    esac
}

# The kit that rt is of, and its compiler.
kit=$(dirname "$(rt doc)")
toolchain=$kit/toolchain
