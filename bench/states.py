#!/usr/bin/env python3
"""Saved states of a busy cartridge: what they cost, and what becomes of one with a changed byte. With the
program that `rt ci` has built.

    bench/states.py [STEP]

`examples/show` is saved behind 20 frames. First the times: of words that are refused, of a run of one
cycle, of one that saves, and of one that loads, each the least of 40. Then every STEP-th byte of the
state, 997 if not given, is changed, in one bit and then in all, one byte at a time: the state has to be
refused at a place, or with both digests where it is the digest that is changed, or run for a frame and
be saved and read again. Anything else ends the run with the byte's place.
"""
import collections
import pathlib
import re
import subprocess
import sys
import tempfile
import time

TOP = pathlib.Path(__file__).resolve().parent.parent
PROGRAM = TOP / "crates" / "md_prog" / "out" / "md_prog"
FRAME = 896_040
REFUSED = re.compile(r"refused: state at (\d+)\n")


def run(*words):
    return subprocess.run([PROGRAM, *map(str, words)], capture_output=True, text=True)


def least(count, *words):
    """The least milliseconds of so many runs."""
    best = float("inf")
    for _ in range(count):
        start = time.perf_counter()
        run(*words)
        best = min(best, time.perf_counter() - start)
    return best * 1000


def answer(image, state, at, folder):
    """What becomes of a state: the place at which it is refused, `other`, or `run`."""
    again = folder / "again.mds"
    done = run("run", image, "--cycles", at + FRAME, "--load", state, "--save", again)
    refused = REFUSED.fullmatch(done.stdout)
    if done.returncode == 7 and refused:
        return int(refused.group(1))
    if done.returncode == 8 and done.stdout.startswith("refused: state of another cartridge "):
        return "other"
    if done.returncode == 9:
        return "behind"
    if done.returncode == 0:
        more = run("run", image, "--cycles", at + FRAME + 1, "--load", again)
        return "run" if more.returncode == 0 else f"saved and then {more.returncode} {more.stdout}"
    return f"{done.returncode} {done.stdout}"


def change_all(image, kept, at, step, folder):
    counts = collections.Counter()
    state = folder / "changed.mds"
    for place in range(0, len(kept), step):
        for bits in (0x01, 0xFF):
            changed = bytearray(kept)
            changed[place] ^= bits
            state.write_bytes(changed)
            found = answer(image, state, at, folder)
            known = isinstance(found, int) or found in ("run", "other", "behind")
            if not known or found == "other" and not 8 <= place < 40:
                sys.exit(f"byte {place} changed by {bits:02x}: {found}")
            kind = found if isinstance(found, str) else "at it or before" if found <= place else "behind it"
            counts[kind] += 1
    return counts


def main():
    step = int(sys.argv[1]) if len(sys.argv) > 1 else 997
    if not PROGRAM.exists():
        sys.exit(f"{PROGRAM} is missing: run `rt ci` first")
    with tempfile.TemporaryDirectory() as name:
        folder = pathlib.Path(name)
        image, state = folder / "show.bin", folder / "show.mds"
        source = TOP / "examples" / "show" / "show.asm"
        run("asm", source, image)
        at = 20 * FRAME + 12_345
        run("run", image, "--cycles", at, "--save", state)
        nothing = least(40, "run")
        one = least(40, "run", image, "--cycles", 1)
        save = least(40, "run", image, "--cycles", 1, "--save", folder / "one.mds")
        load = least(40, "run", image, "--cycles", at + 1, "--load", state)
        print(f"words refused {nothing:.2f} ms, one cycle {one:.2f} ms", flush=True)
        print(f"writing {save - one:.2f} ms, reading {load - one:.2f} ms", flush=True)
        for kind, count in sorted(change_all(image, state.read_bytes(), at, step, folder).items()):
            print(f"{kind}: {count}")


if __name__ == "__main__":
    main()
