#!/usr/bin/env python3
"""Checks a long run piece by piece, side by side, against states that were saved on its way.

    verify.py make-states ROM REC CYCLES PIECES FOLDER
    verify.py [--jobs N] [--piece K] ROM REC STATE...

REC is a recording, or - where nothing is pressed.

`make-states` runs the cartridge ROM from power-on to the cycle CYCLES and saves the state at the end of
each of so many PIECES, as 0001.mds and so on, in FOLDER.

The other form takes such states in any order and sorts them by their cycles. Piece 1 goes from power-on
to the first state, piece 2 from there to the second, and so on. Each is a run of its own that begins at
the state before it, and what it saves has to be the state behind it, byte for byte. N of them, as many
as there are processors if not given, are made side by side. `--piece K` checks one alone, for a batch
system that starts the pieces itself.

Where all are as they were kept, the last line says so, and the status is 0. Else the last line names the
first piece that is not, and the status is 1. Status 2 is for words that are wrong, for files that cannot
be read or are no cartridge and no recording, and for runs that cannot be made.
"""
import argparse
import concurrent.futures
import os
import pathlib
import subprocess
import sys
import tempfile

PROGRAM = pathlib.Path(__file__).resolve().parent.parent / "crates" / "md_prog" / "out" / "md_prog"
MARKS = b"MDSTATE1", b"MDSTATE2", b"MDSTATE3"
# what md_prog says of a saved state: a field or length, its cartridge, its cycle
STATE_FAULTS = 7, 8, 9, 11


class Wrong(Exception):
    """Why the words or the files are wrong."""


def cycle_of(state):
    """The cycle of a saved state, which stands behind its mark and the cartridge's digest."""
    with open(state, "rb") as file:
        head = file.read(48)
    if len(head) < 48 or not head.startswith(MARKS):
        raise Wrong(f"{state} is no saved state")
    return int.from_bytes(head[40:], "big")


def run(rom, recording, cycle, load, save):
    """Runs to a cycle; answers what is wrong with a state, or nothing."""
    words = [PROGRAM, "run", rom, "--cycles", str(cycle), "--save", save]
    words += [] if recording == "-" else ["--in", recording]
    words += [] if load is None else ["--load", load]
    done = subprocess.run(words, stdout=subprocess.PIPE, text=True)
    fault = done.stdout.strip() or f"status {done.returncode}"
    if done.returncode not in (0, *STATE_FAULTS):
        raise Wrong(fault)
    return fault if done.returncode else ""


def progress(text):
    """A line for whoever looks on."""
    if sys.stderr.isatty():
        print(text, file=sys.stderr, flush=True)


def make_states(rom, recording, cycles, count, folder):
    """Saves a state at the end of each piece of a run."""
    if not 0 < count <= cycles:
        raise Wrong("there is no piece without a cycle")
    folder.mkdir(parents=True, exist_ok=True)
    load = None
    for number in range(1, count + 1):
        save = folder / f"{number:04}.mds"
        fault = run(rom, recording, cycles * number // count, load, save)
        if fault:
            raise Wrong(fault)
        progress(f"{number} of {count} saved")
        load = save
    print(f"{count} states in {folder}, the last at cycle {cycles}")


def pieces_of(states):
    """The pieces, each with its number, the state that it begins at, and that at its end."""
    ordered = sorted(states, key=cycle_of)
    cycles = [cycle_of(state) for state in ordered]
    if len(set(cycles)) != len(cycles):
        raise Wrong("two states have the same cycle")
    return list(zip(range(1, len(ordered) + 1), [None, *ordered], ordered))


def first_difference(kept, made):
    """The place of the first byte that differs, or None."""
    if kept == made:
        return None
    places = range(min(len(kept), len(made)))
    return next((place for place in places if kept[place] != made[place]), len(places))


def check(rom, recording, piece):
    """What is wrong with a piece, or nothing."""
    _, load, kept = piece
    with tempfile.TemporaryDirectory() as name:
        save = pathlib.Path(name) / "made.mds"
        fault = run(rom, recording, cycle_of(kept), load, save)
        if fault:
            return fault
        place = first_difference(pathlib.Path(kept).read_bytes(), save.read_bytes())
    return "" if place is None else f"the state at its end differs from {kept} at byte {place}"


def named(piece):
    """A piece in words."""
    number, load, kept = piece
    return f"piece {number}, cycles {0 if load is None else cycle_of(load)} to {cycle_of(kept)}"


def check_all(rom, recording, pieces, jobs):
    """Checks pieces side by side; prints the first that is wrong, and tells whether there is none."""
    with concurrent.futures.ThreadPoolExecutor(jobs) as pool:
        checks = [pool.submit(check, rom, recording, piece) for piece in pieces]
        try:
            for piece, done in zip(pieces, checks):
                fault = done.result()
                if fault:
                    print(f"{named(piece)}: {fault}")
                    return False
                progress(f"{named(piece)}: as kept")
        finally:
            pool.shutdown(wait=False, cancel_futures=True)
    return True


def words_of(arguments):
    """The command line, read."""
    parser = argparse.ArgumentParser(description=__doc__, formatter_class=argparse.RawTextHelpFormatter)
    making = arguments[:1] == ["make-states"]
    if making:
        parser.add_argument("command")
    parser.add_argument("rom", metavar="ROM")
    parser.add_argument("recording", metavar="REC")
    if making:
        parser.add_argument("cycles", metavar="CYCLES", type=int)
        parser.add_argument("pieces", metavar="PIECES", type=int)
        parser.add_argument("folder", metavar="FOLDER", type=pathlib.Path)
    else:
        parser.add_argument("--jobs", type=int, default=os.cpu_count(), metavar="N")
        parser.add_argument("--piece", type=int, metavar="K")
        parser.add_argument("states", metavar="STATE", nargs="+")
    return parser.parse_args(arguments)


def verify(words):
    """Checks the pieces that the words ask for, and prints what came of it."""
    pieces = pieces_of(words.states)
    if words.piece is not None:
        if not 1 <= words.piece <= len(pieces):
            raise Wrong(f"there is no piece {words.piece}")
        pieces = [pieces[words.piece - 1]]
    if not check_all(words.rom, words.recording, pieces, max(1, words.jobs)):
        return 1
    if words.piece is not None:
        print(f"{named(pieces[0])}: as kept")
    else:
        print(f"all {len(pieces)} pieces, from power-on to cycle {cycle_of(pieces[-1][2])}: as kept")
    return 0


def main():
    words = words_of(sys.argv[1:])
    if not PROGRAM.exists():
        print(f"{PROGRAM} is missing: run `rt ci` first", file=sys.stderr)
        return 2
    try:
        if "folder" in words:
            make_states(words.rom, words.recording, words.cycles, words.pieces, words.folder)
            return 0
        return verify(words)
    except (Wrong, OSError) as fault:
        print(f"{sys.argv[0]}: {fault}", file=sys.stderr)
        return 2


if __name__ == "__main__":
    sys.exit(main())
