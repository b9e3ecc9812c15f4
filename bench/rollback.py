#!/usr/bin/env python3
"""How long a frame of a session of two players takes, with the program that `rt ci` has built.

    bench/rollback.py [--frames FRAMES] [--rounds ROUNDS]

Plays examples/show from power-on in a session where all buttons are known before their frame, and in one where player 2
is eight frames late and was expected wrongly each time, so that eight frames are played again for each new one. The
last makes FRAMES new frames, 120 if not given, the other eight times as many. Beside each a `run` without an output
plays about as many frames. Both share one processor, and take turns on it by the millisecond, since a clock drifts from
second to second: so it is the processor time of each that counts. Prints milliseconds a frame of the run, and what a
session's frame takes of it: the median of ROUNDS rounds, 9 if not given, the least and the greatest.
"""
import argparse
import os
import statistics
import subprocess
import sys

import expected
import hostile

LATE = 8


def buttons(frame):
    """What player 2 presses: another button in each frame."""
    return 1 << frame % 8


def known(frames):
    """The lines of a session in which nobody is late."""
    for frame in range(frames):
        yield f"l {frame} 0"
        yield f"r {frame} {buttons(frame):x}"
        yield "a"


def late(frames):
    """The lines of one in which player 2 is late."""
    for frame in range(frames):
        yield f"l {frame} 0"
        if frame >= LATE:
            yield f"r {frame - LATE} {buttons(frame - LATE):x}"
        yield "a"


def together(folder, processor, commands):
    """The processor seconds of several runs of the program that share one processor."""

    def bind():
        os.sched_setaffinity(0, {processor})

    how = {"cwd": folder, "stdout": subprocess.DEVNULL, "preexec_fn": bind}
    jobs = [subprocess.Popen([hostile.PROGRAM, *map(str, words)], **how) for words in commands]
    used = []
    for job in jobs:
        _, status, spent = os.wait4(job.pid, 0)
        job.returncode = os.waitstatus_to_exitcode(status)
        if job.returncode != 0:
            sys.exit(f"{job.args}: status {job.returncode}")
        used.append(spent.ru_utime + spent.ru_stime)
    return used


def measure(folder, processor, lines, first, new, played):
    """The seconds of a run's frame, and of one of a session: it begins with so many frames that each is played once,
    and then has so many new ones, for each of which so many are played."""
    (folder / "inputs").write_text("".join(f"{line}\n" for line in lines(first + new)))
    frames = first + new * played
    commands = [("run", "game.bin", "--cycles", frames * expected.FRAME), ("rollback", "game.bin", "inputs", "--window", 16)]
    run, session = together(folder, processor, commands)
    return run / frames, (session - first * run / frames) / new


def main():
    parser = argparse.ArgumentParser(description=__doc__, formatter_class=argparse.RawTextHelpFormatter)
    parser.add_argument("--frames", type=int, default=120)
    parser.add_argument("--rounds", type=int, default=9)
    words = parser.parse_args()
    processor = max(os.sched_getaffinity(0))
    with hostile.folder_of("show") as folder:
        for title, lines, first, new, played in (
            ("known", known, 0, LATE * words.frames, 1),
            ("eight again", late, LATE, words.frames, LATE + 1),
        ):
            taken = [measure(folder, processor, lines, first, new, played) for _ in range(words.rounds)]
            parts = [session / run for run, session in taken]
            frame = 1_000 * statistics.median(run for run, _ in taken)
            middle = statistics.median(parts)
            print(f"{title}: {middle:.2f} of a run's {frame:.3f} ms ({min(parts):.2f} to {max(parts):.2f})", flush=True)


if __name__ == "__main__":
    main()
