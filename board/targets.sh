# The targets, for the scripts of this folder to source. `describe TARGET` sets for one of them
#   flags      what the kit's clang takes
#   cc         what compiles and links a host program for it
#   run        what runs that program here
#   packages   Debian's, that have both
# and `describe` alone prints the names of all.
# shellcheck shell=sh disable=SC2034,SC2119,SC2120

fail() {
    echo "board: $*" >&2
    exit 2
}

need() { # TOOL WHERE..
    command -v "$1" >/dev/null || fail "$1 is missing; it is in: $(shift; echo "$@")"
}

# Ends a command, with status 2, at a word that is no target.
all_known() { # COMMAND WORDS..
    command=$1
    shift
    for word; do
        describe | tr ' ' '\n' | grep -qxF -e "$word" || { echo "$command: '$word' is no target ($command --help)" >&2; exit 2; }
    done
}

# The folder of the kit's compiler, and the compiler.
find_kit() {
    tools=$(dirname "$(rt doc)")/toolchain
    clang=$tools/bin/clang
}

# A bare program starts at the address ORIGIN; it has its C library, and board/bare.c for a system.
bare() { # ORIGIN
    echo "-DBARE -nostartfiles -T board/bare.ld -Wl,--defsym=origin=$1,-z,noexecstack,--no-warn-rwx-segments board/bare.c"
}

# The emulator lends its files, and its clock goes by instructions.
emulator='-display none -monitor none -serial none -semihosting-config enable=on,target=native -icount shift=6 -kernel'

describe() {
    case ${1-} in
    '')
        echo x86_64-unknown-linux-gnu aarch64-linux-gnu armv7-unknown-linux-gnueabihf aarch64-none-elf \
            thumbv6m-none-eabi thumbv7em-none-eabi thumbv8m.main-none-eabi riscv32imac-unknown-none-elf
        ;;
    x86_64-unknown-linux-gnu)
        flags='-march=x86-64 -fPIC' cc=gcc run='' packages=gcc
        ;;
    aarch64-linux-gnu)
        flags=-fPIC
        cc='aarch64-linux-gnu-gcc -static' run=qemu-aarch64 packages='gcc-aarch64-linux-gnu qemu-user'
        ;;
    armv7-unknown-linux-gnueabihf)
        flags='-march=armv7-a -fPIC'
        cc='arm-linux-gnueabihf-gcc -static' run=qemu-arm packages='gcc-arm-linux-gnueabihf qemu-user'
        ;;
    aarch64-none-elf) # aligned accesses alone: it refuses others until its memory is set up. Run as a Linux program
        flags=-mstrict-align
        cc='aarch64-linux-gnu-gcc -static' run=qemu-aarch64 packages='gcc-aarch64-linux-gnu qemu-user'
        ;;
    thumbv*)
        case $1 in
        thumbv6m-none-eabi) core=cortex-m0 machine=mps2-an385 origin=0 ;; # a Cortex-M3, which runs code for M0
        thumbv7em-none-eabi) core=cortex-m4 machine=mps2-an386 origin=0 ;;
        thumbv8m.main-none-eabi) core=cortex-m33 machine=mps2-an505 origin=0x10000000 ;;
        *) fail "no target $1; there are: $(describe)" ;;
        esac
        flags="-mcpu=$core -mfloat-abi=soft -meabi gnu"
        cc="arm-none-eabi-gcc -mcpu=$core -mthumb $(bare $origin)" run="qemu-system-arm -M $machine $emulator"
        packages='gcc-arm-none-eabi libnewlib-arm-none-eabi qemu-system-arm'
        ;;
    riscv32imac-unknown-none-elf)
        flags='--target=riscv32-unknown-none-elf -march=rv32imac -mabi=ilp32'
        cc="riscv64-unknown-elf-gcc --specs=picolibc.specs -march=rv32imac -mabi=ilp32 -misa-spec=2.2 $(bare 0x80000000)"
        run="qemu-system-riscv32 -M virt -bios none $emulator"
        packages='gcc-riscv64-unknown-elf picolibc-riscv64-unknown-elf qemu-system-misc'
        ;;
    *) fail "no target $1; there are: $(describe)" ;;
    esac
}
