#!/usr/bin/env python3
"""What several workers make of the frames a second of one, with the program that `rt ci` has built.

    bench/workers.py [--frames FRAMES] [--rounds ROUNDS] [WORKERS...]

Runs the cartridges of frames.py and examples/pads for FRAMES frames, 600 if not given, with sound and journal, ROUNDS
times, 7 if not given: with one worker, with each number of WORKERS in turn, 2 and 5 if none is named, and with one
again. Prints for each cartridge and number of workers the part that they make of one worker's frames a second: the
median of the rounds, the least and the greatest. A run counts against the mean of the two of one worker around it,
since a clock drifts from minute to minute.

Seen on a host with four processors, whose speed changed by half within minutes. Two workers, with sound and journal,
medians of rounds of 9 to 21 runs of 300 frames:

    show                                            1.15 and 1.17
    where the Z80 is busy                           1.09 and 1.13
    chord                                           1.07
    a transfer in each frame                        1.02
    a loop of thirteen instructions                 0.96 and 1.00
    scale                                           0.90 and 0.98
    pads                                            0.91 and 0.98
    where the VDP is written to all the time        0.90 and 0.95
    the shortest frames                             0.89, 0.94 and 1.00

Seen on another host of four processors, left alone, medians of eleven runs of 300 frames with 2, 3 and 5 workers:

    show                                            1.11, 1.09, 1.13
    game                                            1.24, 0.99, 1.11
    chord                                           1.00, 0.95, 0.88
    the shortest frames                             0.88, 0.81, 0.85

Since then one worker alone takes a sixth to a quarter fewer instructions a frame. The leader of several has all of
that but the Z80 that sleeps. On a third host, left alone, medians of eleven runs of 300 frames with 2, 3 and 5
workers; single runs made from 0.25 to 1.81:

    show                                            1.01, 0.95, 0.79
    game                                            1.02, 0.96, 0.95
    chord                                           1.00, 0.79, 0.90
    the shortest frames                             0.80, 0.67, 0.77

There, in single runs, 1,500 frames of game took one worker 0.82 seconds and 0.82 of processor time, two 0.93 and
1.66, five 0.94 and 2.54. By samples of perf, which itself slows threads down, helpers had 11 hundredths of the time
of two workers and 20 of three, most of it in looking for work and in wakes by the system, and the leader made nearly
all batches and lines itself.

Since then one worker's 68000 stays until another chip's turn comes, which spares up to a seventh of a frame's
instructions; the leader's does not. On a fourth host, left alone, in the same way; single runs made from 0.53 to 1.47:

    show                                            0.91, 0.92, 0.93
    game                                            1.10, 0.96, 0.86
    chord                                           0.83, 0.74, 0.68
    where the Z80 is busy                           1.11, 1.13, 1.14
    a transfer in each frame                        0.82, 0.76, 0.79
    the shortest frames                             0.89, 0.80, 0.88

By the least times of five to seven runs of 100 frames five workers made 1.12 on show, 0.94 to 1.00 on chord, and 0.92
on the shortest frames. Nothing written, two made 1.00 on show, 0.91 on the shortest frames, and 0.90 on scale and
where the VDP is written to all the time. While the host gave a sixth and more of the time that was wanted to others,
it was 0.74 to 1.03. The reasons: what the processors do between two events takes less time than to hand it on; each
frame starts its threads again; and where a cartridge changes the VDP while its picture is drawn, lines that were drawn
ahead are of no use.
"""
import argparse
import pathlib
import statistics
import tempfile

import frames


def parts(image, count, folder, rounds, numbers):
    """Of each number of workers, what each round's run made of one worker's frames a second."""
    found = {workers: [] for workers in numbers}
    before = frames.run(image, count, folder)[0]
    for _ in range(rounds):
        for workers in numbers:
            several = frames.run(image, count, folder, workers)[0]
            after = frames.run(image, count, folder)[0]
            found[workers].append((before + after) / 2 / several)
            before = after
    return found


def main():
    parser = argparse.ArgumentParser(description=__doc__, formatter_class=argparse.RawTextHelpFormatter)
    parser.add_argument("--frames", type=int, default=600)
    parser.add_argument("--rounds", type=int, default=7)
    parser.add_argument("workers", type=int, nargs="*", default=[2, 5])
    words = parser.parse_args()
    with tempfile.TemporaryDirectory() as name:
        folder = pathlib.Path(name)
        made = frames.images(folder)
        made["pads"] = folder / "pads.bin"
        frames.build(frames.TOP / "examples" / "pads" / "pads.asm", made["pads"])
        for cartridge, image in made.items():
            for workers, found in parts(image, words.frames, folder, words.rounds, words.workers).items():
                middle = statistics.median(found)
                print(f"{cartridge}, workers {workers}: {middle:.2f} ({min(found):.2f} to {max(found):.2f})", flush=True)


if __name__ == "__main__":
    main()
