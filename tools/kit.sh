# tools/kit.sh: for the commands in tools/ to read (`.`), behind tools/say.sh. Where the Rattle kit is, what kind of machine this is, the kit's compiler, archiver and linker for it, the processors that
# archives are made for, C headers for the compiler, and what readelf says of an object or archive.
needs rt
kit=$(cd "$(dirname "$(rt doc)")" && pwd -P)
machine=$(uname -m)
clang=$kit/toolchain/bin/clang
archiver=$kit/toolchain/bin/llvm-ar
linker=$kit/toolchain/bin/ld.lld

# The crate whose archive is a library: of khsaemudol that of its C interface.
crate_of() { # LIBRARY
    if [ -d "crates/$1_c" ]; then echo "$1_c"; else echo "$1"; fi
}

# The processors that the library is released for, and the words that tools/library takes for one: its triple and CPU.
processors='x86-64 aarch64 cortex-a7 cortex-m4 cortex-m0 rv32imac'
processor() { # NAME
    case $1 in
    x86-64) triple=x86_64-linux-gnu cpu='' ;;
    aarch64) triple=aarch64-linux-gnu cpu='' ;;
    cortex-a7) triple=arm-linux-gnueabihf cpu=$1 ;;
    cortex-m4) triple=thumbv7em-none-eabi cpu=$1 ;;
    cortex-m0) triple=thumbv6m-none-eabi cpu=$1 ;;
    rv32imac) triple=riscv32-unknown-elf cpu=$1 ;;
    esac
}

# Writes the C headers that the library's header and the C of these tools ask for, of clang's own types: the kit has none.
c_headers() { # FOLDER
    mkdir -p "$1"
    for bits in 8 16 32 64; do
        printf 'typedef __INT%s_TYPE__ int%s_t;\ntypedef __UINT%s_TYPE__ uint%s_t;\n' $bits $bits $bits $bits
    done >"$1/stdint.h"
    printf 'typedef __SIZE_TYPE__ size_t;\n#define NULL ((void *)0)\n' >"$1/stddef.h"
}

# The bytes of code and of constants.
code_of() {
    sum=0
    for size in $(readelf -SW "$1" | sed -n 's/.* \.\(text\|rodata\)[^ ]* *PROGBITS *[0-9a-f]* *[0-9a-f]* *\([0-9a-f]*\) .*/0x\2/p'); do
        sum=$((sum + size))
    done
    echo $sum
}

# The names that are left undefined, one a line.
undefined_in() { readelf -sW "$1" | awk '$5 == "GLOBAL" && $7 == "UND" { print $8 }' | sort -u; }
