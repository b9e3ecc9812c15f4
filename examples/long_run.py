#!/usr/bin/env python3
"""Makes a long run in pieces, so that it can be watched, stopped, and gone on with.

    long_run.py [--seconds N] [--frames] [--sound] [--journal] [--in P] [--load S] [--pal] [--workers K]
                ROM CYCLES FOLDER

The cartridge ROM is run to the cycle CYCLES, as `md_prog run` does with the same options, from power-on or from
the state S, in pieces of N seconds of the console, 10 if not given. FOLDER, which is made where it is missing, gets
`state.mds` and what is asked for of `frames.ppm`, `sound.wav` and `journal.jnl`: byte for byte the files of one run,
as the lines that are printed at the end are its lines.

Behind each piece a line on standard error tells how far the run is, how many times faster than the console it went
since it was started, and how long the rest takes at that speed. ^C stops it, as does whatever else ends it; the same
words go on behind the last whole piece, and with a greater CYCLES also where the run was done. `pieces` in FOLDER has
what that takes, one piece's files at most, and can be removed behind the last one. `sound.wav` can be played before.

The status is 0 where the run is done, 130 where it was stopped, and 2 where the words or the files are wrong.
"""
import argparse
import contextlib
import fcntl
import hashlib
import json
import os
import pathlib
import shutil
import signal
import subprocess
import sys
import time

LATEST = 549_755_813_888
PROGRAM = pathlib.Path(__file__).resolve().parent.parent / "crates" / "md_prog" / "out" / "md_prog"
CLOCKS = {False: 53_693_175, True: 53_203_424}
OUTPUTS = {"frames": "frames.ppm", "sound": "sound.wav", "journal": "journal.jnl"}
MARKS = b"MDSTATE1", b"MDSTATE2", b"MDSTATE3"
SOUND_HEAD = 44
COUNTED = "frames", "samples", "accesses"


class Wrong(Exception):
    """Why the words or the files are wrong."""


class Words(argparse.ArgumentParser):
    """Words whose faults are one line."""

    def error(self, message):
        raise Wrong(message)


def digest(name):
    """The SHA-256 of a file, or nothing where none is named."""
    if name is None:
        return ""
    return hashlib.sha256(pathlib.Path(name).read_bytes()).hexdigest()


def begin_of(state):
    """The cycle of a saved state, and whether it is PAL's."""
    if state is None:
        return 0, False
    with open(state, "rb") as file:
        head = file.read(49)
    if len(head) < 49 or not head.startswith(MARKS):
        raise Wrong(f"{state} is no saved state")
    return int.from_bytes(head[40:48], "big"), head[:8] != MARKS[0] and head[48] == 1


def asked(words):
    """What a run is: it goes on only where all of this is the same."""
    return {
        "cartridge": digest(words.rom),
        "recording": digest(words.recording),
        "state at its begin": digest(words.load),
        "region": "PAL" if words.pal else "NTSC",
        "choice of outputs": [name for name in OUTPUTS if getattr(words, name)],
    }


def new_notes(words):
    """The notes of a run that has not begun."""
    cycle, _ = begin_of(words.load)
    sizes = {name: SOUND_HEAD if name == "sound" else 0 for name in asked(words)["choice of outputs"]}
    counts = dict.fromkeys(COUNTED, 0)
    return {"of": asked(words), "begin": cycle, "at": cycle, "sizes": sizes, "counts": counts, "rest": ""}


def read_notes(words):
    """The notes that the folder keeps of the run, or new ones."""
    path = words.pieces / "notes.json"
    if not path.exists():
        found = [name for name in (*OUTPUTS.values(), "state.mds") if (words.folder / name).exists()]
        if found:
            raise Wrong(f"{words.folder} has {found[0]}, but no notes of a run")
        return new_notes(words)
    try:
        notes = json.loads(path.read_text())
        if notes["at"] == notes["begin"]:
            return new_notes(words)
        differs = [name for name, value in asked(words).items() if notes["of"][name] != value]
    except (ValueError, LookupError, TypeError):
        raise Wrong(f"{path} has no notes of a run") from None
    if differs:
        raise Wrong(f"{words.folder} has a run with another {differs[0]}")
    if words.cycles < notes["at"]:
        raise Wrong(f"the run in {words.folder} is at cycle {notes['at']} already")
    return notes


def write_notes(pieces, notes):
    """Writes the notes at once or not at all."""
    with open(pieces / "notes.new", "w") as file:
        json.dump(notes, file, indent=1)
        file.flush()
        os.fsync(file.fileno())
    os.replace(pieces / "notes.new", pieces / "notes.json")


def kept_state(words, notes):
    """The state behind the last whole piece."""
    return words.load if notes["at"] == notes["begin"] else words.pieces / f"{notes['at']}.mds"


def make_piece(words, notes, end):
    """Runs one piece; answers its lines."""
    command = [PROGRAM, "run", words.rom, "--cycles", str(end), "--save", words.pieces / f"{end}.mds"]
    state = kept_state(words, notes)
    command += [] if state is None else ["--load", state]
    command += ["--pal"] if words.pal and state is None else []
    command += [] if words.recording is None else ["--in", words.recording]
    command += ["--workers", str(words.workers)]
    for name in notes["sizes"]:
        command += [f"--{name}", words.pieces / name]
    done = subprocess.run(command, stdout=subprocess.PIPE, text=True)
    if done.returncode:
        raise Wrong(done.stdout.strip() or f"md_prog ended with status {done.returncode}")
    return done.stdout.splitlines()


def sound_head(piece, size):
    """The head of a sound file of some bytes, by that of a piece."""
    return piece[:4] + (size - 8).to_bytes(4, "little") + piece[8:40] + (size - SOUND_HEAD).to_bytes(4, "little")


def join(words, name, size):
    """Puts an output of the piece behind the first bytes of what is joined; answers how many it has then."""
    path = words.folder / OUTPUTS[name]
    with open(words.pieces / name, "rb") as piece, open(path, "r+b" if path.exists() else "w+b") as whole:
        head = piece.read(SOUND_HEAD) if name == "sound" else b""
        whole.truncate(size)
        whole.seek(size)
        shutil.copyfileobj(piece, whole, 1 << 20)
        size = whole.tell()
        if head:
            whole.seek(0)
            whole.write(sound_head(head, size))
        whole.flush()
        os.fsync(whole.fileno())
    return size


def take(words, notes, end, lines):
    """Joins what a piece has made; answers the notes behind it."""
    counts = dict(line.split(" ") for line in lines[1:4])
    sizes = {name: join(words, name, size) for name, size in notes["sizes"].items()}
    counts = {name: notes["counts"][name] + int(counts[name]) for name in COUNTED}
    return {**notes, "at": end, "sizes": sizes, "counts": counts, "rest": "\n".join(lines[4:])}


def tell(text, over):
    """A line for whoever looks on, on a terminal in place of the one before."""
    up = "\033[1A\033[K" if over and sys.stderr.isatty() else ""
    print(up + text, file=sys.stderr, flush=True)


def tell_progress(words, notes, first, spent, over):
    """Tells how far the run is."""
    clock = CLOCKS[words.region]
    speed = (notes["at"] - first) / clock / spent
    left = (words.cycles - notes["at"]) / clock
    done = f"{notes['at'] / clock:.1f} of {words.cycles / clock:.1f} seconds of the console"
    tell(f"{done}, {speed:.1f} times real time, {left / speed:.0f} s left", over)


def clear(pieces, notes):
    """Takes away the states of other pieces than the last whole one, and what a piece has written."""
    for path in [*pieces.glob("*.mds"), *(pieces / name for name in OUTPUTS)]:
        if path.name != f"{notes['at']}.mds":
            path.unlink(missing_ok=True)


def go_on(words, notes):
    """Makes all pieces that are left."""
    first, start, over = notes["at"], time.monotonic(), False
    step = int(words.seconds * CLOCKS[words.region])
    while notes["at"] < words.cycles:
        end = min(notes["at"] + step, words.cycles)
        notes = take(words, notes, end, make_piece(words, notes, end))
        write_notes(words.pieces, notes)
        clear(words.pieces, notes)
        tell_progress(words, notes, first, time.monotonic() - start, over)
        over = True
    return notes


def show(words, notes):
    """Names the state, and prints the lines of the run."""
    shutil.copyfile(words.pieces / f"{notes['at']}.mds", words.folder / "state.mds")
    print(f"cycles {notes['begin']} to {notes['at']}")
    for name in COUNTED:
        print(name, notes["counts"][name])
    if notes["rest"]:
        print(notes["rest"])


@contextlib.contextmanager
def alone(pieces):
    """Sees to it that no other run works there."""
    with open(pieces / "lock", "w") as lock:
        try:
            fcntl.flock(lock, fcntl.LOCK_EX | fcntl.LOCK_NB)
        except OSError:
            raise Wrong(f"another run works in {pieces.parent}") from None
        yield


def words_of(arguments):
    """The command line, read."""
    parser = Words(description=__doc__, formatter_class=argparse.RawTextHelpFormatter)
    parser.add_argument("--seconds", type=float, default=10, metavar="N")
    for name in OUTPUTS:
        parser.add_argument(f"--{name}", action="store_true")
    parser.add_argument("--in", dest="recording", metavar="P")
    parser.add_argument("--load", metavar="S")
    parser.add_argument("--pal", action="store_true")
    parser.add_argument("--workers", type=int, default=1, metavar="K")
    parser.add_argument("rom", metavar="ROM")
    parser.add_argument("cycles", type=int, metavar="CYCLES")
    parser.add_argument("folder", type=pathlib.Path, metavar="FOLDER")
    words = parser.parse_args(arguments)
    if not 1 / 60 <= words.seconds <= 10_000:
        raise Wrong("a piece has a sixtieth of a second at least and 10,000 at most")
    if words.pal and words.load:
        raise Wrong("a saved state has its own region, so that --pal is not given with --load")
    begin, region = begin_of(words.load)
    if words.cycles <= begin:
        raise Wrong(f"cycle {words.cycles} is not above {begin}")
    if words.cycles > LATEST:
        raise Wrong(f"cycle {words.cycles} is too far")
    words.pieces = words.folder / "pieces"
    words.region = words.pal or region
    return words


def run(words):
    """Begins or goes on, and ends."""
    words.pieces.mkdir(parents=True, exist_ok=True)
    with alone(words.pieces):
        notes = read_notes(words)
        write_notes(words.pieces, notes)
        clear(words.pieces, notes)
        show(words, go_on(words, notes))


def main():
    # a shell that runs this behind its back has the signal ignored
    for number in (signal.SIGINT, signal.SIGTERM):
        signal.signal(number, signal.default_int_handler)
    try:
        words = words_of(sys.argv[1:])
        if not PROGRAM.exists():
            raise Wrong(f"{PROGRAM} is missing: run `rt ci` first")
        run(words)
    except KeyboardInterrupt:
        tell("stopped; the same words go on", False)
        return 130
    except (Wrong, OSError) as fault:
        print(f"{sys.argv[0]}: {fault}", file=sys.stderr)
        return 2
    return 0


if __name__ == "__main__":
    sys.exit(main())
