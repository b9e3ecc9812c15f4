#!/bin/sh
# Builds a cartridge of hello.c, or of sources of one's own, with the start, the vectors and the division here.
#
#     build.sh IMAGE [SOURCE...]
#
# Debian's packages gcc-m68k-linux-gnu and binutils-m68k-linux-gnu are needed (tried: 12.2.0 and 2.40); where they
# are missing a line says so, and the status is 2.
set -eu
if [ $# -eq 0 ]; then
    echo "build.sh: the name of the image is missing" >&2
    exit 2
fi
for tool in m68k-linux-gnu-gcc m68k-linux-gnu-objcopy; do
    if ! command -v "$tool" > /dev/null; then
        echo "build.sh: $tool is missing (Debian: gcc-m68k-linux-gnu, binutils-m68k-linux-gnu)" >&2
        exit 2
    fi
done
here=$(dirname "$0")
image=$1
shift
[ $# -gt 0 ] || set -- "$here/hello.c"
made=$(mktemp -d)
trap 'rm -r "$made"' EXIT
m68k-linux-gnu-gcc -m68000 -O2 -Wall -Wno-main -ffreestanding -fno-pic -fno-tree-loop-distribute-patterns -nostdlib \
    -no-pie -static -I "$here" -Wl,-T,"$here/cart.ld" -Wl,--build-id=none -Wa,--noexecstack -o "$made/image.elf" \
    "$here/start.s" "$here/divide.s" "$here/fault.c" "$here/memory.c" "$@"
m68k-linux-gnu-objcopy -O binary -j .text -j .data "$made/image.elf" "$image"
