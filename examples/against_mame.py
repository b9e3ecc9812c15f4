#!/usr/bin/env python3
"""Plays the examples in MAME and here, and compares pictures and sound.

    against_mame.py [--seconds N] [EXAMPLE...]

Of each EXAMPLE, all if none is named, a cartridge is built and played for N seconds, 4 if not given, by
MAME's `genesis` and by the program that `rt ci` has built; a recording beside it is played in both. Its
pads have three buttons: an EXAMPLE whose recording has pads of six, as `pads`, is left out. One that ends in
.bin is the name of a cartridge. Then are compared

- the pictures, dot by dot. The levels of a colour are other numbers in MAME, so each colour here has to
  be one colour there in all pictures, and each colour there one here. MAME's frames may stand some frames
  earlier or later; the distance at which most are the same is found and printed. Pictures without
  partner at the beginning and the end are not counted.
- the sound: the strongest tone of each half second, to 1 Hz and 0.3 of a hundred, or silence. Of tones
  that are nearly as strong as the strongest, at least 0.7 of it, either emulator may play any loudest.

MAME is Debian's package `mame`; no other is needed. Its frames take 300 KB each in a temporary folder.
The exit status is 0 where all is the same, 1 where something differs, 2 where something is missing.
"""
import argparse
import cmath
import math
import os
import pathlib
import shutil
import struct
import subprocess
import sys
import tempfile

import assembled
import record

HERE = pathlib.Path(__file__).resolve().parent
PROGRAM = HERE.parent / "crates" / "md_prog" / "out" / "md_prog"
CLOCK, FRAME = 53_693_175, 896_040
PPM_HEAD, WIDTH, HEIGHT = 15, 320, 224
FARTHEST = 4
TRIED = range(40, 60)
WINDOW = 16_384
LOWEST, SILENCE, NEARLY = 20, 20.0, 0.7
# Each frame as it is done: width and height, four bytes each, and four bytes a dot, low byte first. The
# words of the pads are set as the recording has them.
SCRIPT = """
local out = assert(io.open(os.getenv("MAME_FRAMES"), "wb"))
local words = assert(io.open(os.getenv("MAME_PADS"), "rb")):read("a"):sub(13)
local screen = manager.machine.screens[":megadriv"]
local frame = 0
local function press(pad, word)
  for name, field in pairs(manager.machine.ioport.ports[":ctrl" .. pad .. ":mdpad:PAD"].fields) do
    if name:sub(1, 1) == "P" then field:set_value(word & field.mask ~= 0 and 1 or 0) end
  end
end
emu.register_frame_done(function()
  local pixels, width, height = screen:pixels()
  out:write(string.pack("<I4I4", width, height), pixels)
  if #words >= 4 * (frame + 1) then
    press(1, string.unpack(">I2", words, 4 * frame + 1))
    press(2, string.unpack(">I2", words, 4 * frame + 3))
  end
  frame = frame + 1
end)
emu.register_stop(function() out:close() end)
"""


def play_here(folder, seconds):
    """Runs the cartridge of the folder, which gets here.ppm and here.wav."""
    words = [PROGRAM, "run", folder / "cart.bin", "--cycles", str(seconds * CLOCK)]
    words += ["--in", folder / "cart.rec", "--frames", folder / "here.ppm", "--sound", folder / "here.wav"]
    done = subprocess.run(words, stdout=subprocess.PIPE, text=True)
    if done.returncode != 0:
        sys.exit(f"{PROGRAM.name} ended with {done.returncode}: {done.stdout.strip()}")


def play_there(folder, seconds):
    """Has MAME play the cartridge of the folder, which gets mame.raw and mame.wav."""
    script = folder / "frames.lua"
    script.write_text(SCRIPT)
    room = os.environ | {
        "HOME": str(folder),
        "SDL_VIDEODRIVER": "dummy",
        "SDL_AUDIODRIVER": "dummy",
        "MAME_FRAMES": str(folder / "mame.raw"),
        "MAME_PADS": str(folder / "cart.rec"),
    }
    words = [mame(), "genesis", "-cart", folder / "cart.bin", "-video", "none", "-sound", "none"]
    words += ["-seconds_to_run", str(seconds), "-nothrottle", "-skip_gameinfo"]
    words += ["-autoboot_delay", "0", "-autoboot_script", script, "-wavwrite", folder / "mame.wav"]
    done = subprocess.run(words, cwd=folder, env=room, capture_output=True, text=True)
    if not (folder / "mame.raw").exists():
        sys.exit(f"MAME ended with {done.returncode}: {done.stderr.strip()}")


def mame():
    """The path of MAME, which Debian has outside the usual folders."""
    return shutil.which("mame") or shutil.which("mame", path="/usr/games")


def starts_here(data):
    """Where the pictures of a frames file begin."""
    return range(0, len(data), PPM_HEAD + 3 * WIDTH * HEIGHT)


def starts_there(data):
    """Where the pictures that the script wrote begin."""
    starts, start = [], 0
    while start < len(data):
        starts.append(start)
        width, height = struct.unpack_from("<II", data, start)
        start += 8 + 4 * width * height
    return starts


def dots_here(data, start, width):
    """The colours of a picture; of a width of 256 the middle ones, since MAME shows those alone."""
    dots = data[start + PPM_HEAD : start + PPM_HEAD + 3 * WIDTH * HEIGHT]
    left = 3 * ((WIDTH - width) // 2)
    if left:
        rows = range(left, len(dots), 3 * WIDTH)
        dots = b"".join(dots[row : row + 3 * width] for row in rows)
    return zip(dots[0::3], dots[1::3], dots[2::3])


def colours(here, start, there, at):
    """The pairs of colours of a picture here and one there, whose upper byte is no colour."""
    width, height = struct.unpack_from("<II", there, at)
    dots = there[at + 8 : at + 8 + 4 * width * height].cast("I")
    if height != HEIGHT:
        return {(None, 0), (None, 1)}
    return {(dot, other & 0xFFFFFF) for dot, other in set(zip(dots_here(here, start, width), dots))}


def is_one_to_one(pairs):
    return len(pairs) == len({pair[0] for pair in pairs}) == len({pair[1] for pair in pairs})


def differing(here, there, distance, numbers):
    """Those of the numbers whose pictures are not the same under one table of colours, how many have a
    partner, and the length of the table."""
    starts, others = starts_here(here), starts_there(there)
    table, wrong, count = set(), [], 0
    for number in numbers:
        if not (number < len(starts) and 0 <= number + distance < len(others)):
            continue
        count += 1
        pairs = colours(here, starts[number], there, others[number + distance])
        if is_one_to_one(table | pairs):
            table |= pairs
        else:
            wrong.append(number)
    return wrong, count, len(table)


def distance_of(here, there):
    """The distance at which most of some pictures are the same, the least of these."""
    distances = range(-FARTHEST, FARTHEST + 1)
    return min(distances, key=lambda d: (len(differing(here, there, d, TRIED)[0]), abs(d)))


def compare_pictures(here, there):
    """A line about the pictures, and whether all are the same."""
    distance = distance_of(here, there)
    wrong, count, table = differing(here, there, distance, range(len(starts_here(here))))
    line = f"{count - len(wrong)} of {count} pictures the same, {table} colours, MAME's {distance:+d}"
    return line + (f", not {wrong[:8]}" if wrong else ""), not wrong


def samples_of(path):
    """The rate of a sound file, halved, and the sums of its sides, each the mean of two samples."""
    data = path.read_bytes()
    (rate,) = struct.unpack_from("<I", data, 24)
    sides = memoryview(data)[44 : len(data) // 8 * 8 - 4].cast("h").tolist()
    return rate / 2, [sum(sides[at : at + 4]) / 4 for at in range(0, len(sides) - 3, 4)]


def transform(values):
    """The discrete Fourier transform; the length is a power of two."""
    if len(values) == 1:
        return values
    half = len(values) // 2
    even, odd = transform(values[0::2]), transform(values[1::2])
    turned = [cmath.exp(-2j * cmath.pi * k / len(values)) * odd[k] for k in range(half)]
    return [a + b for a, b in zip(even, turned)] + [a - b for a, b in zip(even, turned)]


def spectrum(samples):
    """How strong the frequencies are, each a step of rate / WINDOW behind the last."""
    mean, step = sum(samples) / len(samples), 2 * math.pi / len(samples)
    shaped = [(value - mean) * (1 - math.cos(step * k)) for k, value in enumerate(samples)]
    bins = transform(shaped + [0.0] * (WINDOW - len(shaped)))
    return [2 * abs(value) / len(samples) + 1e-9 for value in bins[: WINDOW // 2]]


def tones(samples, rate):
    """The frequencies of the tones that are nearly as strong as the strongest, which comes first."""
    size, lowest = spectrum(samples), int(LOWEST * WINDOW / rate)
    tops = [k for k in range(lowest, len(size) - 1) if size[k - 1] < size[k] >= size[k + 1] and size[k] > SILENCE]
    tops.sort(key=size.__getitem__, reverse=True)
    found = []
    for top in (k for k in tops if size[k] >= NEARLY * size[tops[0]]):
        low, mid, high = (math.log(size[top + k]) for k in (-1, 0, 1))
        found.append((top + (low - high) / (2 * (low - 2 * mid + high))) * rate / WINDOW)
    return found


def tones_of(path):
    """The strongest tones of each half second."""
    rate, samples = samples_of(path)
    length = int(rate / 2)
    return [tones(samples[at : at + length], rate) for at in range(0, len(samples) - length + 1, length)]


def is_among(tone, others):
    return any(abs(tone - other) < 1 + 0.003 * tone for other in others)


def are_same(here, there):
    """Whether the strongest tone of each is among the strongest of the other, or both are silent."""
    if not here or not there:
        return here == there
    return is_among(here[0], there) and is_among(there[0], here)


def told(tones):
    return "+".join(f"{tone:.1f}" for tone in sorted(tones)) or "silent"


def compare_tones(here, there):
    """A line about the sound, and whether it is the same."""
    count = min(len(here), len(there))
    wrong = [k for k in range(count) if not are_same(here[k], there[k])]
    line = f"{count - len(wrong)} of {count} half seconds the same: {' '.join(map(told, here[:count]))}"
    for k in wrong:
        line += f"; {k} is {told(there[k])} in MAME"
    return line, not wrong


def cartridge_of(example):
    """The image of an example, or of a file, and the lines of its recording's text."""
    if example.endswith(".bin"):
        return pathlib.Path(example).read_bytes(), []
    image = assembled.image_of(HERE / example / f"{example}.asm")
    pads = HERE / example / f"{example}.txt"
    return image, pads.read_text().splitlines() if pads.exists() else []


def compare(example, seconds):
    """Plays one example in both, prints two lines, and tells whether both are the same."""
    with tempfile.TemporaryDirectory() as name:
        folder = pathlib.Path(name)
        image, lines = cartridge_of(example)
        recording = record.record(lines)
        if not recording.startswith(b"MDREC001"):
            print(f"{example}: left out, its pads have six buttons", flush=True)
            return True
        (folder / "cart.bin").write_bytes(image)
        (folder / "cart.rec").write_bytes(recording)
        play_there(folder, seconds)
        play_here(folder, seconds)
        here, there = (memoryview((folder / file).read_bytes()) for file in ("here.ppm", "mame.raw"))
        seen, is_seen = compare_pictures(here, there)
        heard, is_heard = compare_tones(tones_of(folder / "here.wav"), tones_of(folder / "mame.wav"))
    print(f"{example}: {seen}\n{example}: {heard}", flush=True)
    return is_seen and is_heard


def main():
    parser = argparse.ArgumentParser(description=__doc__, formatter_class=argparse.RawTextHelpFormatter)
    parser.add_argument("--seconds", type=int, default=4)
    parser.add_argument("examples", nargs="*", metavar="EXAMPLE")
    words = parser.parse_args()
    if mame() is None or not PROGRAM.exists():
        print("MAME (Debian's package mame) or the program (run `rt ci` first) is missing", file=sys.stderr)
        return 2
    every = sorted(path.parent.name for path in HERE.glob("*/*.asm") if path.stem == path.parent.name)
    same = [compare(example, words.seconds) for example in words.examples or every]
    return 0 if all(same) else 1


if __name__ == "__main__":
    sys.exit(main())
