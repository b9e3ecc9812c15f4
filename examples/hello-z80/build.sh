#!/bin/sh
# Builds the cartridge of loader.asm with the Z80's program of hello.c, or of a source of one's own.
#
#     build.sh IMAGE [SOURCE]
#
# Debian's package sdcc is needed (tried: 4.2.0), and md_prog; where one is missing a line says so, and the status
# is 2. So it does where the program is longer than 7,168 bytes or its variables longer than 768.
set -eu
fault() {
    echo "build.sh: $1" >&2
    exit 2
}
[ $# -gt 0 ] || fault "the name of the image is missing"
for tool in sdcc sdasz80 makebin; do
    command -v "$tool" > /dev/null || fault "$tool is missing (Debian: sdcc)"
done
here=$(cd "$(dirname "$0")" && pwd)
program="$here/../../crates/md_prog/out/md_prog"
[ -e "$program" ] || fault "md_prog is missing: run \`rt ci\` first"
made=$(mktemp -d)
trap 'rm -r "$made"' EXIT
sdasz80 -o "$made/start.rel" "$here/start.s"
sdcc -mz80 -c -o "$made/program.rel" "${2:-$here/hello.c}"
sdcc -mz80 --no-std-crt0 --code-loc 0x40 --data-loc 0x1c00 -o "$made/made.ihx" "$made/start.rel" "$made/program.rel"
makebin -p "$made/made.ihx" "$made/made.z80"
[ "$(wc -c < "$made/made.z80")" -le 7168 ] || fault "the program is longer than 7,168 bytes"
variables=$(awk '/ l__(DATA|INITIALIZED) /{print "0x" $1}' "$made/made.map")
length=0
for part in $variables; do length=$((length + part)); done
[ "$length" -le 768 ] || fault "the variables are longer than 768 bytes"
"$program" asm "$here/loader.asm" "$made/head"
cat "$made/head" "$made/made.z80" > "$1"
