#!/usr/bin/env python3
"""Writes a recording of the pads from its text or from another emulator's movie, and the other way round.

    record.py [--pal] FROM TO

FROM is told by its contents: a text, a recording, a movie of Gens (GMV) or one of BizHawk (BK2). TO is told by
its ending: `.txt` is a text, `.gmv` and `.bk2` are movies, and all else is a recording.

A line of the text has a number of frames and the buttons that are pressed on pad 1 during them, out of Up,
Down, Left, Right, B, C, A, Start, Z, Y, X and Mode, in any case; behind a slash stand those of pad 2. What
follows a semicolon is a comment. A second has about 60 frames. A pad has six buttons where a line names one of
the last four for it, or by a line `pads 6 3`, which tells how many buttons either pad has, and where one has
six the recording is of version 2.

A movie holds what was pressed in each frame of its own emulator, and lines on standard error tell what of it
does not hold here: `--pal` of a run, which a movie of PAL needs, a third pad, and the time. Where the other
emulator's program took longer or shorter for something, the game reads its pads in another frame, and goes
another way from there on. A game that reads its pads in the picture, not in the vertical blanking, sees them a
frame later here. `--pal` marks a movie that is written as one of PAL. BizHawk asks for the cartridge itself,
and for pads of six buttons in its settings.

Status 2 comes where a file cannot be read or written or is none of these, where a button is none, and where a
movie begins at a saved state or presses Power or Reset, which a recording has not.
"""
import struct
import sys

import faults
import movies

BUTTONS = movies.BUTTONS
MARKS = b"MDREC001", b"MDREC002"
MOST_FRAMES = 1_048_576
# The notes on a movie of another emulator.
TIME = "{} times its frames in another way: from the first frame that differs on the game may go another way"


def word(number, names):
    """The word of the buttons that a line names."""
    known = {name.lower(): bit for bit, name in enumerate(BUTTONS)}
    for name in names:
        if name.lower() not in known:
            raise faults.Wrong(f"line {number}: {name} is no button")
    return sum(1 << bit for bit in {known[name.lower()] for name in names})


def count_of(number, text):
    if not (text.isascii() and text.isdecimal()):
        raise faults.Wrong(f"line {number}: {text} is no number of frames")
    if int(text) > MOST_FRAMES:
        raise faults.Wrong(f"line {number}: {text} frames are more than {MOST_FRAMES}")
    return int(text)


def movie_of_text(lines):
    """What a text's lines tell."""
    movie = movies.Movie()
    for number, line in enumerate(lines, 1):
        count, _, pressed = line.split(";")[0].strip().partition(" ")
        if count.lower() == "pads":
            if pressed.split() not in [[one, two] for one in "36" for two in "36"]:
                raise faults.Wrong(f"line {number}: pads have 3 or 6 buttons")
            movie.six = [count == "6" for count in pressed.split()]
        elif count:
            first, _, second = pressed.partition("/")
            words = word(number, first.split()), word(number, second.split())
            movie.frames.extend([words] * count_of(number, count))
        if len(movie.frames) > MOST_FRAMES:
            raise faults.Wrong(f"{len(movie.frames)} frames are more than {MOST_FRAMES}")
    return movie


def text_of(movie):
    """The lines of a text, one for the frames in which nothing changes."""
    lines = []
    if any(movie.six):
        lines.append(f"pads {' '.join('6' if six else '3' for six in movie.six)}")
    start = 0
    for end in range(1, len(movie.frames) + 1):
        if end == len(movie.frames) or movie.frames[end] != movie.frames[start]:
            first, second = (movies.names_of(word) for word in movie.frames[start])
            slash = f" / {second}" if second else ""
            lines.append(f"{end - start} {first}".rstrip() + slash)
            start = end
    return "".join(f"{line}\n" for line in lines).encode()


def movie_of_recording(data):
    """What a recording holds."""
    flags = struct.unpack_from(">H", data, 8)[0] if data.startswith(MARKS[1]) and len(data) >= 10 else 0
    at = 14 if data.startswith(MARKS[1]) else 12
    count = int.from_bytes(data[at - 4 : at], "big")
    if len(data) != at + 4 * count or count > MOST_FRAMES or flags > 3:
        raise faults.Wrong("the recording does not end where it should")
    movie = movies.Movie()
    movie.six = [bool(flags & 1), bool(flags & 2)]
    movie.frames = list(struct.iter_unpack(">HH", data[at:]))
    for frame in movie.frames:
        for pad, pressed in enumerate(frame):
            if pressed >= (1 << 12 if movie.six[pad] else 1 << 8):
                raise faults.Wrong(f"the recording presses what pad {pad + 1} has not")
    return movie


def recording_of(movie):
    """The bytes of a recording."""
    movie.grow()
    flags = movie.six[0] | movie.six[1] << 1
    lead = MARKS[1] + struct.pack(">H", flags) if flags else MARKS[0]
    return lead + struct.pack(">I", len(movie.frames)) + b"".join(struct.pack(">HH", *frame) for frame in movie.frames)


def record(lines):
    """The recording of a text's lines."""
    return recording_of(movie_of_text(lines))


def read(name):
    """The movie of a file, and lines on what of it does not hold here."""
    with open(name, "rb") as file:
        data = file.read()
    if data.startswith(MARKS):
        return movie_of_recording(data), []
    for mark, reader, emulator in ((movies.GMV_MARK, movies.of_gmv, "Gens"), (b"PK\3\4", movies.of_bk2, "BizHawk")):
        if data.startswith(mark):
            movie, notes = reader(data)
            if len(movie.frames) > MOST_FRAMES:
                raise faults.Wrong(f"{len(movie.frames)} frames are more than {MOST_FRAMES}")
            return movie, [*notes, TIME.format(emulator)]
    try:
        return movie_of_text(data.decode().splitlines()), []
    except UnicodeDecodeError:
        raise faults.Wrong("neither a text, nor a recording, nor a movie of Gens or BizHawk") from None


def written(name, movie):
    """The bytes of a file of this name."""
    movie.grow()
    if name.endswith(".txt"):
        return text_of(movie)
    if name.endswith(".gmv"):
        return movies.gmv_of(movie)
    if name.endswith(".bk2"):
        return movies.bk2_of(movie)
    return recording_of(movie)


def words_of(arguments):
    """The command line, read."""
    parser = faults.Parser(__doc__)
    parser.add_argument("--pal", action="store_true")
    parser.add_argument("source", metavar="FROM")
    parser.add_argument("target", metavar="TO")
    return parser.parse_args(arguments)


def main():
    words = words_of(sys.argv[1:])
    try:
        movie, notes = read(words.source)
    except faults.Wrong as fault:
        raise faults.Wrong(f"{words.source}: {fault}") from None
    movie.pal = movie.pal or words.pal
    data = written(words.target, movie)
    with open(words.target, "wb") as file:
        file.write(data)
    for note in notes:
        print(f"{words.source}: {note}", file=sys.stderr)


if __name__ == "__main__":
    sys.exit(faults.ending(main))
