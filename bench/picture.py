#!/usr/bin/env python3
"""What the drawing of a frame takes, by the program that `rt ci` has built.

    bench/picture.py [FRAMES]

Three cartridges bring the same memories into the VDP and then branch to themselves: `off` with the
display off, `planes` with two planes that scroll and no sprites, and `sprites` with 80 sprites of 32 by
32 dots besides, 20 of them on each of 128 lines. Each runs for FRAMES frames, 600 if not given, with one
worker and no output, five times, of which the fastest counts. The difference to `off` is the drawing:
microseconds a frame, and how many such frames a second would be.
"""
import pathlib
import subprocess
import sys
import tempfile
import time

TOP = pathlib.Path(__file__).resolve().parent.parent
PROGRAM = TOP / "crates" / "md_prog" / "out" / "md_prog"
FRAME = 896_040
CONTROL = 0x00C0_0004
VRAM_AT, CRAM_AT = 0x1_0000, 0x2_0000
PLANE_A, PLANE_B, SPRITES, SCROLLS = 0xC000, 0xE000, 0xF000, 0xF400
CARTRIDGES = (("off", 0x14, False), ("planes", 0x54, False), ("sprites", 0x54, True))


def words(*values):
    return b"".join(value.to_bytes(2, "big") for value in values)


def put(memory, at, data):
    memory[at : at + len(data)] = data


def video_memory(with_sprites):
    """Patterns of all colours, two planes of them with both palettes and priorities, and sprites."""
    memory = bytearray(0x1_0000)
    for pattern in range(1, 65):
        for row in range(8):
            dots = [(pattern + row * 3 + column * (row % 2 + 1)) % 16 for column in range(8)]
            pairs = [dots[n] * 16 + dots[n + 1] for n in range(0, 8, 2)]
            put(memory, pattern * 32 + row * 4, bytes(pairs))
    for cell in range(64 * 32):
        name = 1 + cell % 64 + cell % 4 * 0x2000
        clear = 0 if cell % 3 == 0 else name
        put(memory, PLANE_A + 2 * cell, words(clear + cell % 2 * 0x8000))
        put(memory, PLANE_B + 2 * cell, words(name ^ 0x0800))
    for line in range(224):
        put(memory, SCROLLS + 4 * line, words(line, 0x10000 - line & 0xFFFF))
    for number in range(80):
        row, column = divmod(number, 20)
        sprite = words(128 + 32 * row, 0x0F00 + (number + 1) % 80, 0x6001 + number % 32, 128 + 15 * column)
        if with_sprites:
            put(memory, SPRITES + 8 * number, sprite)
    return memory


def transfer(source, length, command):
    """Writes to the control port that transfer so many words from the cartridge."""
    half = source // 2
    values = (0x9300 + length % 256, 0x9400 + length // 256, 0x9500 + half % 256)
    values += (0x9600 + half // 256 % 256, 0x9700 + half // 65536, command >> 16, command & 0xFFFF)
    return values


def cartridge(mode, with_sprites):
    registers = (0x8114, 0x8230, 0x8338, 0x8407, 0x8578, 0x8700, 0x8A00, 0x8B07, 0x8C81, 0x8D3D)
    registers += (0x8F02, 0x9001, 0x9100, 0x9200)
    writes = registers + transfer(VRAM_AT, 0x8000, 0x4000_0080)
    writes += transfer(CRAM_AT, 64, 0xC000_0080) + (0x8100 + mode,)
    code = words(0x41F9, CONTROL >> 16, CONTROL & 0xFFFF)
    code += b"".join(words(0x30BC, value) for value in writes) + words(0x60FE)
    image = bytearray(CRAM_AT + 128)
    put(image, 0, words(0x00FF, 0xF000, 0x0000, 0x0200))
    put(image, 0x100, b"SEGA")
    put(image, 0x200, code)
    put(image, VRAM_AT, video_memory(with_sprites))
    put(image, CRAM_AT, words(*(n * 37 % 512 * 8 & 0x0EEE for n in range(64))))
    return image


def seconds(image, frames):
    command = [PROGRAM, "run", image, "--cycles", str(frames * FRAME)]
    start = time.perf_counter()
    subprocess.run(command, check=True, stdout=subprocess.DEVNULL)
    return time.perf_counter() - start


def main():
    frames = int(sys.argv[1]) if len(sys.argv) > 1 else 600
    if not PROGRAM.exists():
        sys.exit(f"{PROGRAM} is missing: run `rt ci` first")
    with tempfile.TemporaryDirectory() as name:
        best = {}
        for cartridge_name, mode, with_sprites in CARTRIDGES:
            image = pathlib.Path(name) / f"{cartridge_name}.bin"
            image.write_bytes(cartridge(mode, with_sprites))
            best[cartridge_name] = min(seconds(image, frames) for _ in range(5))
    for cartridge_name in ("planes", "sprites"):
        drawing = (best[cartridge_name] - best["off"]) / frames
        print(f"{cartridge_name}: {drawing * 1e6:.0f} microseconds a frame, {1 / drawing:.0f} frames a second")


if __name__ == "__main__":
    main()
