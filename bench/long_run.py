#!/usr/bin/env python3
"""Checks that examples/long_run.py leaves the files and the lines of one run, byte for byte, also where it is stopped.

    bench/long_run.py [--cycles CYCLES]

Runs of CYCLES cycles, 322,159,050 if not given, which are six seconds, are made by `md_prog run` at once and by
long_run.py in pieces: of the cartridges `busy` and `transfer` of frames.py, and of examples/show and examples/pads,
the last with its recording; at NTSC, at PAL, and from a saved state. Some are stopped by ^C behind their second piece,
some are killed within one, and one gets a piece's files cut short and lengthened, as they are behind a failure of
power; they are gone on with by the same words. The status is 0 where all is the same, 1 where something differs.
"""
import argparse
import pathlib
import signal
import subprocess
import sys
import tempfile

import frames

LONG_RUN = frames.TOP / "examples" / "long_run.py"
FILES = {"frames": "frames.ppm", "sound": "sound.wav", "journal": "journal.jnl", "save": "state.mds"}
# a name, the cartridge, its options, the seconds of a piece, and how the run is disturbed
RUNS = [
    ("busy, pieces of a second", "busy", [], 1, ""),
    ("busy at PAL, stopped", "busy", ["--pal"], 0.37, "stopped"),
    ("transfer, killed", "transfer", [], 0.5, "killed"),
    ("transfer, the files altered", "transfer", [], 2, "altered"),
    ("show from a state, stopped", "show", ["--load"], 0.1, "stopped"),
    ("pads with its recording, killed", "pads", ["--in"], 0.25, "killed"),
    ("pads at PAL, one piece", "pads", ["--in", "--pal"], 100, ""),
]


def images(folder):
    """The cartridges by their names, and the recording of pads."""
    made = frames.images(folder)
    made["pads"] = folder / "pads.bin"
    frames.build(frames.TOP / "examples" / "pads" / "pads.asm", made["pads"])
    text, made["rec"] = frames.TOP / "examples" / "pads" / "pads.txt", folder / "pads.rec"
    subprocess.run([sys.executable, frames.TOP / "examples" / "record.py", text, made["rec"]], check=True)
    return made


def options_of(names, made, image, folder):
    """The options of a run, with their files."""
    options = []
    for name in names:
        options.append(name)
        if name == "--in":
            options.append(made["rec"])
        if name == "--load":
            options.append(folder / "begin.mds")
            begin = [frames.PROGRAM, "run", image, "--cycles", "7654321", "--save", options[-1]]
            subprocess.run(begin, check=True, stdout=subprocess.DEVNULL)
    return options


def at_once(image, cycles, options, folder):
    """Makes the files by one run; answers its lines."""
    folder.mkdir()
    words = [frames.PROGRAM, "run", image, "--cycles", str(cycles), *options]
    for option, name in FILES.items():
        words += [f"--{option}", folder / name]
    return subprocess.run(words, check=True, stdout=subprocess.PIPE, text=True).stdout


def begin_and_end(command, how):
    """Starts a run in pieces, and stops or kills it in its third piece."""
    with subprocess.Popen(command, stdout=subprocess.DEVNULL, stderr=subprocess.PIPE, text=True) as job:
        for _ in range(2):
            job.stderr.readline()
        job.send_signal(signal.SIGINT if how == "stopped" else signal.SIGKILL)
        rest = job.stderr.read()
    return how == "killed" or job.returncode == 130 and rest.endswith("stopped; the same words go on\n")


def alter(folder):
    """Leaves files of a piece that was never noted."""
    with open(folder / "frames.ppm", "ab") as file:
        file.write(b"more")
    (folder / "pieces" / "frames").write_bytes(b"P6\n320")
    (folder / "pieces" / "99.mds").write_bytes(b"MDSTATE3")


def in_pieces(image, cycles, options, seconds, how, folder):
    """Makes the files by long_run.py; answers its lines, or nothing where it did not end as it has to."""
    command = [sys.executable, LONG_RUN, "--frames", "--sound", "--journal", *options, "--seconds", str(seconds)]
    command += [image, str(cycles), folder]
    if how in ("stopped", "killed") and not begin_and_end(command, how):
        return ""
    if how == "altered":
        shorter = [*command[:-2], str(cycles // 2), folder]
        subprocess.run(shorter, check=True, stdout=subprocess.DEVNULL, stderr=subprocess.DEVNULL)
        alter(folder)
    done = subprocess.run(command, stdout=subprocess.PIPE, stderr=subprocess.DEVNULL, text=True)
    return done.stdout if done.returncode == 0 else ""


def is_same(run, made, cycles, folder):
    """Compares a run in pieces with one at once."""
    name, cartridge, names, seconds, how = run
    options = options_of(names, made, made[cartridge], folder)
    whole = at_once(made[cartridge], cycles, options, folder / "once")
    joined = in_pieces(made[cartridge], cycles, options, seconds, how, folder / "pieces")
    differs = [] if whole == joined else ["the lines"]
    for file in FILES.values():
        path = folder / "pieces" / file
        if not path.exists() or path.read_bytes() != (folder / "once" / file).read_bytes():
            differs.append(file)
    print(f"{name}: {'the same' if not differs else ', '.join(differs) + ' DIFFER'}", flush=True)
    return not differs


def main():
    parser = argparse.ArgumentParser(description=__doc__, formatter_class=argparse.RawTextHelpFormatter)
    parser.add_argument("--cycles", type=int, default=322_159_050)
    words = parser.parse_args()
    if not frames.PROGRAM.exists():
        print(f"{frames.PROGRAM} is missing: run `rt ci` first", file=sys.stderr)
        return 2
    with tempfile.TemporaryDirectory() as name:
        made = images(pathlib.Path(name))
        sames = []
        for run in RUNS:
            with tempfile.TemporaryDirectory() as own:
                sames.append(is_same(run, made, words.cycles, pathlib.Path(own)))
    return 0 if all(sames) else 1


if __name__ == "__main__":
    sys.exit(main())
