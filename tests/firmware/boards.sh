# The boards that archives are tested on, for the scripts that source this file at the repository's root: emulated ones for the controllers,
# this machine for i386.

# Debian's packages that the tests of a target need: packages_of TARGET
packages_of() {
    case $1 in
    cortex-*) echo gcc-arm-none-eabi picolibc-arm-none-eabi qemu-system-arm ;;
    rv32imac) echo gcc-riscv64-unknown-elf picolibc-riscv64-unknown-elf qemu-system-misc ;;
    i386) echo gcc-multilib ;;
    esac
}

# A board with room for every test: board_of TARGET
board_of() {
    case $1 in
    cortex-m0plus | cortex-m3) echo mps2-an385 ;; # a Cortex-M3, which has all instructions of an M0+
    cortex-m4 | cortex-m4f) echo mps2-an386 ;;
    rv32imac) echo virt ;;
    i386) echo native ;;
    esac
}

# A board that faults on what the target does not have, with less room: strict_board_of TARGET
strict_board_of() {
    case $1 in
    cortex-m0plus) echo lm3s6965evb ;; # with a Cortex-M0 put in: 64 KiB of memory, no unaligned access
    *) board_of "$1" ;;
    esac
}

# The compiler of the tests with its flags: compiler_for TARGET BOARD
compiler_for() {
    case $1 in
    cortex-m0plus) command="arm-none-eabi-gcc -mcpu=cortex-m0plus -mthumb" ;;
    cortex-m3) command="arm-none-eabi-gcc -mcpu=cortex-m3 -mthumb" ;;
    cortex-m4) command="arm-none-eabi-gcc -mcpu=cortex-m4 -mfloat-abi=soft -mthumb" ;;
    cortex-m4f) command="arm-none-eabi-gcc -mcpu=cortex-m4 -mfloat-abi=hard -mfpu=fpv4-sp-d16 -mthumb" ;;
    rv32imac) command="riscv64-unknown-elf-gcc -march=rv32imac -mabi=ilp32" ;;
    i386) command="gcc -m32 -g -fsanitize=address,undefined -fno-sanitize-recover=all" ;;
    esac
    # picolibc's build "release" copies by words, its default byte by byte.
    [ "$2" = native ] || command="$command --specs=picolibc.specs --picolibc-buildtype=release --oslib=semihost --crt0=semihost \
-Wl,--no-warn-execstack -T tests/firmware/${2%-*}.ld"
    echo "$command"
}

# Runs a program on a board, its output and status as ours: run_on BOARD PROGRAM [ARGUMENT].., EMULATOR_FLAGS in the environment
run_on() {
    on=$1 program=$2
    shift 2
    [ "$on" != native ] || {
        "$program" "$@"
        return
    }
    [ $# -gt 0 ] || set -- "" # else the emulator passes the program's name
    words=
    for each; do words="$words,arg=$each"; done
    case $on in
    lm3s6965evb) emulator="qemu-system-arm -M lm3s6965evb -cpu cortex-m0" ;;
    virt) emulator="qemu-system-riscv32 -M virt -bios none" ;;
    *) emulator="qemu-system-arm -M $on" ;;
    esac
    timeout 600 $emulator ${EMULATOR_FLAGS:-} -display none -monitor none -serial none -chardev stdio,id=console,mux=off \
        -semihosting-config "enable=on,target=native,chardev=console$words" -kernel "$program" 2> target/firmware/emulator.log < /dev/null || {
        status=$?
        cat target/firmware/emulator.log >&2
        return $status
    }
}

# Whether the tests of a target can be compiled and run here: can_test TARGET
can_test() {
    probe=target/firmware/probe
    mkdir -p target/firmware
    echo 'int main(void) { return 0; }' > $probe.c
    $(compiler_for "$1" "$(board_of "$1")") $probe.c -o $probe > $probe.log 2>&1 && run_on "$(board_of "$1")" $probe >> $probe.log 2>&1
}
