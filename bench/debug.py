#!/usr/bin/env python3
"""How long the debugger takes to keep a state and to go back to one, with the program that `rt ci` has built.

    bench/debug.py [--lines LINES]

Runs sessions over examples/show from its twentieth frame on, of LINES lines `step 1`, 1,000 if not given, and of
as many lines `back 1` behind a few of these; prints milliseconds a line, the program's start taken off. A step
keeps the state before it, that is, writes its 393,620 bytes and compares 97 pages, and obeys one cycle; going back
reads the bytes of a state.
"""
import argparse
import sys
import time

import expected
import hostile


def seconds(folder, lines):
    """The seconds of a session with these lines, the least of five."""
    (folder / "script").write_text("".join(f"{line}\n" for line in lines))
    least = None
    for _ in range(5):
        start = time.perf_counter()
        status, text = hostile.run(folder, "debug", "game.bin", "script")
        taken = time.perf_counter() - start
        if status != 0 or text.count("\n") != len(lines):
            sys.exit(f"status {status} with {text[-200:]!r}")
        least = taken if least is None else min(least, taken)
    return least


def main():
    parser = argparse.ArgumentParser(description=__doc__, formatter_class=argparse.RawTextHelpFormatter)
    parser.add_argument("--lines", type=int, default=1_000)
    count = parser.parse_args().lines
    with hostile.folder_of("show") as folder:
        head = [f"run {20 * expected.FRAME}", "step 1"]
        base = seconds(folder, head)
        for line in ("step 1", "back 1"):
            taken = seconds(folder, head + count * [line]) - base
            print(f"{line}: {1_000 * taken / count:.3f} ms a line")


if __name__ == "__main__":
    main()
