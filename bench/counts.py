#!/usr/bin/env python3
"""Instructions of a frame, counted by valgrind, of the program that `rt ci` has built or of another.

    bench/counts.py [--workers K] [--pal] [--program PROGRAM] [NAME or IMAGE..]

For each cartridge callgrind counts the instructions of a run of 10 frames and of one of 30, with frames, sound and
journal written; a twentieth of the difference is what one of frames 10 to 30 takes. The table has millions, to
the hundredth. A count depends on the program and on the cartridge alone, and not on how busy the machine is: two
programs of one cartridge compare to a hundredth. Without names it counts show, busy, demo7, transfer, idle, data,
mix, scale, chord and game: `demo7` is the demonstration cartridge of 7, the others are those of frames.py, which tells what
they do. A name that is a file's is counted as a cartridge of the user's.

callgrind counts each byte of `rep stosb` and `rep movsb`, which a processor does sixteen and more at a time: clearing
a picture and copying it out take 0.445 of each row so. Needs valgrind. All ten take a few minutes.
"""
import argparse
import os
import pathlib
import re
import subprocess
import sys
import tempfile
from concurrent.futures import ThreadPoolExecutor

import frames
import hostile

NAMES = ("show", "busy", "demo7", "transfer", "idle", "data", "mix", "scale", "chord", "game")
FIRST, LAST = 10, 30
# cycles of a frame: 262 lines, and 313
NTSC, PAL = 896_040, 1_070_460


def images(folder, program):
    """The cartridges' images, made in a folder, by their names."""
    frames.PROGRAM = program
    made = frames.images(folder)
    made["demo7"] = folder / "demo7.bin"
    made["demo7"].write_bytes(hostile.demo_image(7))
    return made


def instructions(program, image, count, workers, pal):
    """What callgrind counts of a run of so many frames."""
    with tempfile.TemporaryDirectory() as name:
        folder = pathlib.Path(name)
        words = ["valgrind", "--tool=callgrind", "--callgrind-out-file=/dev/null", program, "run", image]
        words += ["--cycles", str(count * (PAL if pal else NTSC)), "--workers", str(workers)]
        words += ["--frames", folder / "frames", "--sound", folder / "sound", "--journal", folder / "journal"]
        done = subprocess.run(words + ["--pal"] * pal, capture_output=True, text=True)
    found = re.search(r"Collected : (\d+)", done.stderr)
    if done.returncode != 0 or not found:
        sys.exit(f"{image}: status {done.returncode}\n{done.stderr[-2000:]}")
    return int(found[1])


def main():
    words = argparse.ArgumentParser(description=__doc__, formatter_class=argparse.RawDescriptionHelpFormatter)
    words.add_argument("--workers", type=int, default=1)
    words.add_argument("--pal", action="store_true")
    words.add_argument("--program", type=pathlib.Path, default=frames.PROGRAM)
    words.add_argument("names", nargs="*", default=NAMES)
    given = words.parse_args()
    program = given.program.resolve()
    if not program.exists():
        sys.exit(f"{program} is missing: run `rt ci` first")
    with tempfile.TemporaryDirectory() as folder, ThreadPoolExecutor(len(os.sched_getaffinity(0))) as pool:
        made = images(pathlib.Path(folder), program)
        cartridges = [made.get(name) or pathlib.Path(name) for name in given.names]

        def count(image, length):
            return pool.submit(instructions, program, image, length, given.workers, given.pal)

        runs = [(count(image, FIRST), count(image, LAST)) for image in cartridges]
        for name, (first, last) in zip(given.names, runs):
            spent = (last.result() - first.result()) / (LAST - FIRST)
            print(f"{name:<12} {spent / 1e6:6.2f} million instructions a frame", flush=True)


if __name__ == "__main__":
    main()
