#!/usr/bin/env python3
"""Makes one HTML page of a run's files, or of two runs side by side.

    page.py [--seconds N] [--pictures N] FOLDER [OTHER] PAGE

FOLDER has the files of a run by the names that long_run.py gives them: `frames.ppm`, `sound.wav`, `journal.jnl`,
`state.mds`, and in `lines.txt` what the run printed. Of each that is there PAGE shows

    lines.txt     the printed lines
    frames.ppm    pictures from the whole run, 12 if not given, and a video of the first N seconds, 60 if not given,
                  with the sound, where there is ffmpeg
    sound.wav     the waveform of both sides, and a spectrogram
    journal.jnl   how many accesses of each kind there were in each frame, for each chip
    state.mds     the colours in CRAM, and the tiles of VRAM in each of its four palettes that has a colour

With OTHER both runs stand side by side, and above them where they part: the first record of the journals that is not
the same, as `journal.py diff` tells it, the first picture, the first sample and the first byte of the state.

All stands in the page itself, which has no script. Debian's packages python3-pil and python3-matplotlib are needed.
A line tells what the page has. The status is 0, or 2 where the words or the files are wrong.
"""
import argparse
import base64
import html
import io
import pathlib
import shutil
import subprocess
import sys
import tempfile
import wave

import journal

try:
    import matplotlib
    import numpy
    from PIL import Image, UnidentifiedImageError

    matplotlib.use("Agg")
    from matplotlib import pyplot
except ImportError as missing:
    print(f"{sys.argv[0]}: {missing}: Debian's packages python3-pil and python3-matplotlib are needed", file=sys.stderr)
    sys.exit(2)

FRAME = {False: 896_040, True: 1_070_460}
CLOCK = {False: 53_693_175, True: 53_203_424}
WIDTH, HEIGHTS = 320, {False: 224, True: 240}
PICTURE_HEAD = 15
RECORD = numpy.dtype([("cycle", ">u8"), ("chip", "u1"), ("kind", "u1"), ("address", ">u4"), ("value", ">u2")])
PIECE = 1 << 20
COLUMNS, WINDOW = 1_000, 2_048
# where the VDP's memories stand in a state, and how much further in front they stand in its first version
STATE_SIZES = {b"MDSTATE1": (378_240, 1), b"MDSTATE2": (393_602, 0), b"MDSTATE3": (393_620, 0)}
REGION, VRAM, CRAM, COLOURS = 48, 74_044, 139_580, 64
TILES, TILES_A_ROW = 2_048, 64
STYLE = """
body { font-family: sans-serif; margin: 1.5em; max-width: 190em; color: #222; }
h1 { font-size: 1.4em; } h2 { font-size: 1.15em; border-bottom: 1px solid #bbb; padding-top: .8em; }
h3 { font-size: 1em; margin: .8em 0 .3em; }
.runs { display: grid; grid-template-columns: repeat(auto-fit, minmax(30em, 1fr)); gap: 2em; }
.runs > div { min-width: 0; }
.strip { display: flex; flex-wrap: wrap; gap: .6em; }
figure { margin: 0; } figcaption { font-size: .8em; color: #555; }
img, video { max-width: 100%; }
.dots { image-rendering: pixelated; background: #000; }
pre { background: #f3f3f3; padding: .6em; overflow-x: auto; font-size: .85em; }
table.colours { border-spacing: 2px; font-family: monospace; font-size: .75em; }
table.colours td { padding: .3em .2em; text-align: center; }
"""


class Wrong(Exception):
    """Why the words or the files are wrong."""


class Words(argparse.ArgumentParser):
    """Words whose faults are one line."""

    def error(self, message):
        raise Wrong(message)


NAMES = {
    "lines": "lines.txt",
    "frames": "frames.ppm",
    "sound": "sound.wav",
    "journal": "journal.jnl",
    "state": "state.mds",
}


class Run:
    """The files of a run that are there."""

    def __init__(self, folder):
        if not folder.is_dir():
            raise Wrong(f"{folder} is no folder")
        self.folder = folder
        self.files = {part: folder / name for part, name in NAMES.items() if (folder / name).exists()}
        if not self.files:
            raise Wrong(f"{folder} has none of {', '.join(NAMES.values())}")
        self.pal = self.is_pal()
        self.height = HEIGHTS[self.pal]
        self.picture = PICTURE_HEAD + 3 * WIDTH * self.height

    def is_pal(self):
        """Whether the files are of a console for PAL."""
        if "frames" in self.files:
            with open(self.files["frames"], "rb") as file:
                return file.read(PICTURE_HEAD) == b"P6\n320 240\n255\n"
        return "state" in self.files and state_of(self.files["state"])[0]

    def size(self, part):
        return self.files[part].stat().st_size

    def pictures(self):
        """How many pictures the frames file has."""
        count, rest = divmod(self.size("frames"), self.picture)
        if rest:
            raise Wrong(f"{self.files['frames']} ends within a picture")
        return count

    def frame(self, number):
        """The bytes of a picture."""
        with open(self.files["frames"], "rb") as file:
            file.seek(number * self.picture)
            return file.read(self.picture)


def state_of(path):
    """Of a state whether it is PAL's, its VRAM, and its colours' words."""
    data = path.read_bytes()
    size, nearer = STATE_SIZES.get(data[:8], (0, 0))
    if len(data) != size:
        raise Wrong(f"{path} is no saved state")
    vram = data[VRAM - nearer : CRAM - nearer]
    cram = data[CRAM - nearer : CRAM - nearer + 2 * COLOURS]
    words = [int.from_bytes(cram[2 * k : 2 * k + 2], "big") for k in range(COLOURS)]
    return not nearer and data[REGION] == 1, vram, words


def in_page(data, kind):
    """Bytes as an address that has them."""
    return f"data:{kind};base64,{base64.b64encode(data).decode()}"


def png_in_page(picture):
    """A picture as an address that has it."""
    out = io.BytesIO()
    picture.save(out, "PNG", optimize=True)
    return in_page(out.getvalue(), "image/png")


def image_tag(picture, caption, width):
    """A picture with its caption."""
    alt, source = html.escape(caption), png_in_page(picture)
    shown = f'<img class="dots" width="{width}" alt="{alt}" src="{source}">'
    return f"<figure>{shown}<figcaption>{alt}</figcaption></figure>"


def drawing(figure):
    """A drawing of matplotlib."""
    out = io.BytesIO()
    figure.savefig(out, format="png", dpi=100)
    pyplot.close(figure)
    return f'<img alt="" src="{in_page(out.getvalue(), "image/png")}">'


def picture_of(run, number):
    """A picture of the frames file."""
    try:
        return Image.open(io.BytesIO(run.frame(number))).convert("RGB")
    except (UnidentifiedImageError, OSError):
        raise Wrong(f"{run.files['frames']} has no picture {number}") from None


def strip(run, most):
    """Pictures from the whole run."""
    count = run.pictures()
    numbers = sorted({(count - 1) * k // max(1, most - 1) for k in range(most)}) if count else []
    shown = "".join(image_tag(picture_of(run, number), f"picture {number}", 180) for number in numbers)
    return f"<h3>{len(numbers)} of {count} pictures</h3>" f'<div class="strip">{shown}</div>'


def video(run, seconds):
    """The first seconds as a video, or why there is none."""
    if shutil.which("ffmpeg") is None:
        return "<p>There is no video, since there is no ffmpeg.</p>"
    if not run.pictures():
        return ""
    with tempfile.TemporaryDirectory() as name:
        made = pathlib.Path(name) / "run.mp4"
        words = ["ffmpeg", "-nostdin", "-v", "error", "-f", "image2pipe", "-c:v", "ppm"]
        words += ["-framerate", f"{CLOCK[run.pal]}/{FRAME[run.pal]}", "-i", run.files["frames"]]
        words += ["-i", run.files["sound"]] if "sound" in run.files else []
        words += ["-t", str(seconds), "-vf", f"scale={2 * WIDTH}:{2 * run.height}:flags=neighbor", "-c:v", "libx264"]
        words += ["-preset", "veryfast", "-pix_fmt", "yuv420p", "-movflags", "+faststart", made]
        done = subprocess.run(words, capture_output=True, text=True)
        if done.returncode:
            raise Wrong(f"ffmpeg: {(done.stderr.strip().splitlines() or ['no word'])[-1]}")
        source = in_page(made.read_bytes(), "video/mp4")
    poster = png_in_page(picture_of(run, run.pictures() // 2))
    shown = f'<video controls width="640" poster="{poster}" src="{source}"></video>'
    return f"<h3>Video of {seconds} seconds at most</h3>{shown}"


def samples_of(path):
    """The pairs of samples of a sound file, and how many there are in a second."""
    try:
        with wave.open(str(path)) as sound:
            if (sound.getnchannels(), sound.getsampwidth()) != (2, 2):
                raise Wrong(f"{path} has not two sides of 16 bits")
            rate = sound.getframerate()
    except (wave.Error, EOFError):
        raise Wrong(f"{path} is no sound file") from None
    if path.stat().st_size < 48:
        return numpy.zeros((1, 2), "<i2"), rate
    pairs = (path.stat().st_size - 44) // 4
    return numpy.memmap(path, "<i2", "r", 44, (pairs, 2)), rate


def waveform(axes, samples, rate):
    """Draws the least and greatest sample of each column, the left side above the right; answers the loudest."""
    bounds = numpy.linspace(0, len(samples), min(COLUMNS, len(samples)) + 1).astype(int)
    parts = [samples[one:other] for one, other in zip(bounds, bounds[1:])]
    low, high = (numpy.array([least(part, axis=0) for part in parts], int) for least in (numpy.min, numpy.max))
    peak = max(-low.min(), high.max())
    for side, shift in ((0, 1), (1, -1)):
        lines = (values[:, side] / max(1, peak) + shift for values in (low, high))
        axes.fill_between(bounds[:-1] / rate, *lines, step="post", linewidth=0.6, color=f"C{side}")
    axes.set(ylim=(-2.1, 2.1), xlim=(0, len(samples) / rate), yticks=[1, -1], yticklabels=["left", "right"])
    return peak


def spectrogram(axes, samples, rate):
    """Draws the power of the tones of each column."""
    last = max(0, len(samples) - WINDOW)
    starts = numpy.linspace(0, last, min(COLUMNS, last + 1)).astype(int)
    shape = numpy.hanning(WINDOW)
    power = numpy.zeros((WINDOW // 2 + 1, len(starts)))
    for column, start in enumerate(starts):
        part = samples[start : start + WINDOW].astype(float).mean(axis=1)
        part = numpy.pad(part - part.mean(), (0, WINDOW - len(part)))
        power[:, column] = numpy.abs(numpy.fft.rfft(part * shape))
    shown = 20 * numpy.log10(power / (32_768 * WINDOW / 4) + 1e-6)
    extent = (0, len(samples) / rate, 0, rate / 2_000)
    axes.imshow(shown, origin="lower", aspect="auto", extent=extent, cmap="magma", vmin=-90, vmax=-10)
    axes.set(ylim=(0, min(16, rate / 2_000)), xlabel="seconds", ylabel="kHz")


def sound(run):
    """The waveform and the spectrogram."""
    samples, rate = samples_of(run.files["sound"])
    figure, (upper, lower) = pyplot.subplots(2, 1, figsize=(10, 5), sharex=True, layout="constrained")
    peak = waveform(upper, samples, rate)
    spectrogram(lower, samples, rate)
    return f"<h3>Sound, {len(samples) / rate:.2f} seconds, {peak:,} of 32,768 at most</h3>{drawing(figure)}"


def records_of(path):
    """The records of a journal, piece by piece."""
    if path.stat().st_size % RECORD.itemsize:
        raise Wrong(f"{path} ends within a record")
    with open(path, "rb") as file:
        while piece := file.read(RECORD.itemsize * PIECE):
            yield numpy.frombuffer(piece, RECORD)


def counts_of(run):
    """How many records of each chip and kind each frame has, from the first frame on, and that one's number."""
    counts, first = {}, 0
    for piece in records_of(run.files["journal"]):
        frames = (piece["cycle"] // FRAME[run.pal]).astype(int)
        if piece["chip"].max() >= len(journal.CHIPS) or piece["kind"].max() >= len(journal.KINDS):
            raise Wrong(f"{run.files['journal']} is no journal")
        first = first if counts else frames[0]
        for pair in numpy.unique(piece["chip"].astype(int) * 16 + piece["kind"]):
            own = frames[(piece["chip"].astype(int) * 16 + piece["kind"]) == pair]
            if own.min() < first or own.max() - first > 1 << 20:
                raise Wrong(f"{run.files['journal']} is no journal")
            found = numpy.bincount(own - first)
            before = counts.get(pair, numpy.zeros(0, int))
            whole = numpy.zeros(max(len(before), len(found)), int)
            whole[: len(before)] += before
            whole[: len(found)] += found
            counts[pair] = whole
    return counts, first


def draw_counts(axes, chip, counts, first, length):
    """Draws how many accesses of a chip there were in each frame."""
    for pair, found in sorted(counts.items()):
        values = numpy.pad(found, (0, length - len(found)))
        label = f"{journal.KINDS[pair % 16]}, {values.sum():,}"
        axes.step(numpy.arange(first, first + length), values, where="post", label=label, linewidth=1)
    axes.set_ylabel(journal.CHIPS[chip])
    if len(counts) > 1:
        axes.set_yscale("symlog", linthresh=10)
    axes.set_ylim(bottom=0)
    axes.legend(loc="center left", bbox_to_anchor=(1, 0.5), fontsize="small", frameon=False)


def accesses(run):
    """A drawing for each chip of how many accesses of each kind a frame has."""
    counts, first = counts_of(run)
    if not counts:
        return "<h3>The journal is empty</h3>"
    chips = {}
    for pair in sorted(counts):
        chips.setdefault(pair // 16, {})[pair] = counts[pair]
    length = max(len(found) for found in counts.values())
    heights = [2.4 if len(own) > 1 else 0.9 for own in chips.values()]
    options = {"squeeze": False, "sharex": True, "layout": "constrained", "height_ratios": heights}
    figure, rows = pyplot.subplots(len(chips), 1, figsize=(10, sum(heights) + 0.5), **options)
    for (chip, own), axes in zip(chips.items(), rows[:, 0]):
        draw_counts(axes, chip, own, first, length)
    rows[-1, 0].set_xlabel("frame")
    total = sum(int(found.sum()) for found in counts.values())
    return f"<h3>Accesses a frame, {total:,} in all</h3>{drawing(figure)}"


def colour(word):
    """A word of CRAM as red, green and blue."""
    return tuple(36 * (word >> place & 7) for place in (1, 5, 9))


def colours(words):
    """CRAM as a table, a palette in each row."""
    rows = ""
    for palette in range(4):
        cells = ""
        for word in words[16 * palette : 16 * palette + 16]:
            red, green, blue = colour(word)
            ink = "#000" if 2 * red + 5 * green + blue > 1_000 else "#fff"
            cells += f'<td style="background: rgb({red}, {green}, {blue}); color: {ink}">{word:04x}</td>'
        rows += f"<tr><th>{palette}</th>{cells}</tr>"
    return f'<table class="colours">{rows}</table>'


def tiles(vram, words):
    """The tiles of VRAM in a palette, 64 in a row."""
    data = numpy.frombuffer(vram, "u1").reshape(TILES // TILES_A_ROW, TILES_A_ROW, 8, 4)
    dots = numpy.stack((data >> 4, data & 15), axis=-1).reshape(TILES // TILES_A_ROW, TILES_A_ROW, 8, 8)
    dots = dots.transpose(0, 2, 1, 3).reshape(TILES // TILES_A_ROW * 8, TILES_A_ROW * 8)
    picture = Image.fromarray(dots.astype("u1"), "P")
    picture.putpalette([level for word in words for level in colour(word)] + [0] * (3 * 240))
    return picture


def state(run):
    """The colours and the tiles of the state."""
    _, vram, words = state_of(run.files["state"])
    palettes = [words[16 * palette : 16 * palette + 16] for palette in range(4)]
    shown = "".join(
        image_tag(tiles(vram, palette), f"tiles 0 to 7ff in palette {number}", 512)
        for number, palette in enumerate(palettes)
        if any(palette)
    )
    return f'<h3>Colours at the end</h3>{colours(words)}<h3>Tiles at the end</h3><div class="strip">{shown}</div>'


def parts_of(run, words):
    """What the page shows of a run, with the names of the parts."""
    made = {}
    if "lines" in run.files:
        made["lines"] = f"<pre>{html.escape(run.files['lines'].read_text())}</pre>"
    if "frames" in run.files:
        made["pictures"] = strip(run, words.pictures)
        made["video"] = video(run, words.seconds)
    for name, part in (("sound", sound), ("journal", accesses), ("state", state)):
        if name in run.files:
            made[name] = part(run)
    return made


def first_unlike(one, other, size):
    """The number of the first piece of so many bytes in which two files differ, or None."""
    number = 0
    with open(one, "rb") as left, open(other, "rb") as right:
        while True:
            a, b = left.read(size), right.read(size)
            if a != b:
                return number
            if not a:
                return None
            number += 1


def parting_journals(one, other):
    """Where two journals part."""
    first = journal.first_difference(one.files["journal"], other.files["journal"])
    if first is None:
        return "<h3>The journals are the same</h3>"
    cycles = [rows[0][0] for run in (one, other) if (rows := journal.some_records(run.files["journal"], first, 1))]
    words = [sys.executable, journal.__file__, "diff", one.files["journal"], other.files["journal"]]
    done = subprocess.run(words, capture_output=True, text=True)
    if done.returncode != 1:
        raise Wrong(done.stderr.strip())
    where = f", in frame {min(cycles) // FRAME[one.pal]}" if cycles else ""
    return f"<h3>The journals part at record {first}{where}</h3><pre>{html.escape(done.stdout)}</pre>"


def parting_pictures(one, other):
    """The first picture that is not the same, of both runs, and the dots in which it differs."""
    if one.picture != other.picture:
        return "<h3>The pictures are of two sizes</h3>"
    first = first_unlike(one.files["frames"], other.files["frames"], one.picture)
    if first is None:
        return "<h3>The pictures are the same</h3>"
    if first >= min(one.pictures(), other.pictures()):
        return f"<h3>The pictures are the same up to the shorter run's end, behind picture {first - 1}</h3>"
    pair = [picture_of(run, first) for run in (one, other)]
    unlike = (numpy.asarray(pair[0]) != numpy.asarray(pair[1])).any(axis=2)
    shown = [image_tag(picture, f"{run.folder.name}, picture {first}", 400) for picture, run in zip(pair, (one, other))]
    shown.append(image_tag(Image.fromarray(unlike), f"{unlike.sum()} dots that differ", 400))
    return f'<h3>Picture {first} is the first that differs</h3><div class="strip">{"".join(shown)}</div>'


def parting_sounds(one, other):
    """Where two sounds part."""
    samples, rate = samples_of(one.files["sound"])
    others, _ = samples_of(other.files["sound"])
    length = min(len(samples), len(others))
    for start in range(0, length, PIECE):
        end = min(start + PIECE, length)
        unlike = (samples[start:end] != others[start:end]).any(axis=1)
        if unlike.any():
            at = start + int(unlike.argmax())
            return f"<h3>The sounds part at pair {at}, {at / rate:.3f} seconds</h3>"
    same = len(samples) == len(others)
    return f"<h3>The sounds are the same{'' if same else ' up to the end of the shorter one'}</h3>"


def parting_states(one, other):
    """Where two states part."""
    first = first_unlike(one.files["state"], other.files["state"], 1)
    return f"<h3>The states {'are the same' if first is None else f'part at byte {first}'}</h3>"


def parting(one, other):
    """Where two runs part."""
    kinds = {"journal": parting_journals, "frames": parting_pictures, "sound": parting_sounds, "state": parting_states}
    if one.pal != other.pal:
        return "<h2>Where they part</h2><p>One run is NTSC's, the other PAL's.</p>"
    shown = "".join(part(one, other) for kind, part in kinds.items() if kind in one.files and kind in other.files)
    return f"<h2>Where they part</h2>{shown}"


def column(run, parts, named):
    """One run in the page."""
    name = f"{html.escape(run.folder.resolve().name)}, " if named else ""
    return f"<div><h2>{name}{'PAL' if run.pal else 'NTSC'}</h2>{''.join(parts.values())}</div>"


def page_of(runs, words):
    """The page, and the parts that it has."""
    title = html.escape(" and ".join(run.folder.resolve().name for run in runs))
    made = [parts_of(run, words) for run in runs]
    above = parting(*runs) if len(runs) == 2 else ""
    columns = "".join(column(run, parts, len(runs) == 2) for run, parts in zip(runs, made))
    head = f'<meta charset="utf-8"><title>{title}</title><style>{STYLE}</style>'
    body = f'<h1>{title}</h1>{above}<div class="runs">{columns}</div>'
    return f'<!DOCTYPE html>\n<html lang="en"><head>{head}</head><body>{body}</body></html>\n', made


def words_of(arguments):
    """The command line, read."""
    parser = Words(description=__doc__, formatter_class=argparse.RawTextHelpFormatter)
    parser.add_argument("--seconds", type=int, default=60, metavar="N")
    parser.add_argument("--pictures", type=int, default=12, metavar="N")
    parser.add_argument("folders", nargs="+", type=pathlib.Path, metavar="FOLDER")
    parser.add_argument("page", type=pathlib.Path, metavar="PAGE")
    words = parser.parse_args(arguments)
    if len(words.folders) > 2:
        raise Wrong("there are two runs at most")
    if words.seconds < 1 or not 1 <= words.pictures <= 1_000:
        raise Wrong("there are a second at least, and 1 to 1,000 pictures")
    return words


def main():
    try:
        words = words_of(sys.argv[1:])
        page, made = page_of([Run(folder) for folder in words.folders], words)
        words.page.write_text(page)
    except (Wrong, OSError, UnicodeDecodeError, journal.NoJournal) as fault:
        print(f"{sys.argv[0]}: {fault}", file=sys.stderr)
        return 2
    for folder, parts in zip(words.folders, made):
        print(f"{folder.name}: {', '.join(parts)}")
    return 0


if __name__ == "__main__":
    sys.exit(main())
