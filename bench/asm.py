#!/usr/bin/env python3
"""The assembler: how long a source of 1,048,576 bytes takes, and how much memory.

    bench/asm.py [PROGRAM]

PROGRAM is md_prog as `rt ci` builds it, crates/md_prog/out/md_prog if not given. Three sources fill the limit:

    mixed    instructions of the 68000 with numbers, labels and branches back and ahead
    short    the shortest instructions of the Z80, so that there are the most lines with bytes
    names    labels alone, so that there are the most names

Of each the seconds of the processor, the wall's, and the greatest resident memory are shown, the program's start
included.
"""
import os
import pathlib
import subprocess
import sys
import tempfile
import time

TOP = pathlib.Path(__file__).resolve().parent.parent
LIMIT = 1_048_576


def filled(blocks):
    """As many blocks as the limit holds."""
    text = bytearray()
    for block in blocks:
        if len(text) + len(block) > LIMIT:
            return bytes(text)
        text += block.encode()
    return bytes(text)


def mixed():
    number = 0
    while True:
        yield (
            f"loop{number}: move.b #$90,$00c00011.l\nlea $00c00004.l,a1\nmove.w (a0)+,(a1)\n"
            f"addi.w #$1234,d0\nbeq.b ahead{number}\ndbf d1,loop{number}\nahead{number}:\n"
        )
        number += 1


def short():
    yield "cpu z80 $0\n"
    while True:
        yield "di\n"


def names():
    number = 0
    while True:
        yield f"n{number:x}z:\n"
        number += 1


def measured(program, source, image):
    begin = time.perf_counter()
    child = subprocess.Popen([program, "asm", source, image], stdout=subprocess.PIPE)
    said = child.stdout.read().decode().strip()
    _, _, used = os.wait4(child.pid, 0)
    return said, used.ru_utime + used.ru_stime, time.perf_counter() - begin, used.ru_maxrss / 1024


def main():
    program = sys.argv[1] if len(sys.argv) > 1 else TOP / "crates" / "md_prog" / "out" / "md_prog"
    with tempfile.TemporaryDirectory() as folder:
        for name, blocks in (("mixed", mixed()), ("short", short()), ("names", names())):
            source = pathlib.Path(folder) / f"{name}.asm"
            source.write_bytes(filled(blocks))
            said, cpu, wall, most = measured(program, source, pathlib.Path(folder) / "image")
            print(f"{name:7} {cpu:6.2f} s, {wall:6.2f} s of the wall, {most:5.1f} MiB: {said}")


if __name__ == "__main__":
    main()
