"""Movies of other emulators: what is pressed on two pads, frame by frame.

Sources: "GMV" of TASVideos' emulator resources for the movies of Gens; "Bk2Format" of TASVideos for those of
BizHawk, whose log of inputs names its columns itself.
"""
import io
import struct
import zipfile

import faults

# Bits of a word from the lowest on.
BUTTONS = ["Up", "Down", "Left", "Right", "B", "C", "A", "Start", "Z", "Y", "X", "Mode"]
THREE_BUTTONS = 0x100

GMV_MARK, GMV_HEAD = b"Gens Movie TEST", 0x40
# Bits of a pad's byte, and of its half of the third byte, from the lowest on; 0 is pressed.
GMV_PAD = ["Up", "Down", "Left", "Right", "A", "B", "C", "Start"]
GMV_MORE = ["X", "Y", "Z", "Mode"]
GMV_PAL, GMV_STATE, GMV_THREE = 0x80, 0x40, 0x20

LOG, HEADER, KEY = "Input Log.txt", "Header.txt", "LogKey:"
# The columns of a pad in a log that is written, and the letters of pressed buttons.
LOG_PAD = ["Up", "Down", "Left", "Right", "A", "B", "C", "Start", "X", "Y", "Z", "Mode"]
LETTERS = "UDLRABCSXYZM"
MOST_LOG = 1 << 27


class Movie:
    """Frames, each of two words; which pads have six buttons; whether it is PAL's."""

    def __init__(self):
        self.frames, self.six, self.pal = [], [False, False], False

    def grow(self):
        """Gives a pad six buttons where one of the last four is pressed."""
        for pad in (0, 1):
            self.six[pad] = self.six[pad] or any(frame[pad] >= THREE_BUTTONS for frame in self.frames)


def bit_of(name):
    return 1 << BUTTONS.index(name)


def names_of(word):
    return " ".join(name for name in BUTTONS if word & bit_of(name))


def pressed(byte, names):
    """The word of the buttons whose bits are 0."""
    return sum(bit_of(name) for bit, name in enumerate(names) if not byte >> bit & 1)


def released(word, names):
    """The byte with a bit of 1 for each button that is not pressed."""
    return sum(1 << bit for bit, name in enumerate(names) if not word & bit_of(name))


def of_gmv(data):
    """The movie of a GMV file, and notes on what is left out."""
    if len(data) < GMV_HEAD or (len(data) - GMV_HEAD) % 3:
        raise faults.Wrong("the movie of Gens ends within a frame")
    movie, notes = Movie(), []
    flags = data[0x16] if data[0x0F] >= ord("A") else 0
    if flags & GMV_STATE:
        raise faults.Wrong("the movie begins at a saved state of Gens")
    movie.six = [data[0x14] == ord("6"), data[0x15] == ord("6")]
    movie.pal = bool(flags & GMV_PAL)
    if movie.pal:
        notes.append("the movie is PAL's: run it with --pal")
    if flags & GMV_THREE:
        notes.append("the third pad is left out")
    for one, two, more in struct.iter_unpack("BBB", data[GMV_HEAD:]):
        words = [pressed(one, GMV_PAD), pressed(two, GMV_PAD)]
        if not flags & GMV_THREE:
            halves = more & 15, more >> 4
            words = [word | pressed(half, GMV_MORE) * six for word, half, six in zip(words, halves, movie.six)]
        movie.frames.append(tuple(words))
    return movie, notes


def gmv_of(movie):
    """The bytes of a GMV file."""
    head = GMV_MARK + b"A" + bytes(4) + bytes(ord("6" if six else "3") for six in movie.six)
    head += bytes([GMV_PAL if movie.pal else 0])
    frames = (
        bytes([released(one, GMV_PAD), released(two, GMV_PAD), released(one, GMV_MORE) | released(two, GMV_MORE) << 4])
        for one, two in movie.frames
    )
    return head.ljust(GMV_HEAD, b"\0") + b"".join(frames)


def member(archive, name):
    """A text within a BK2 file."""
    if archive.getinfo(name).file_size > MOST_LOG:
        raise faults.Wrong(f"{name} is too long")
    return archive.read(name).decode("utf-8-sig")


def of_bk2(data):
    """The movie of a BK2 file, and notes on what is left out."""
    try:
        with zipfile.ZipFile(io.BytesIO(data)) as archive:
            header, log = member(archive, HEADER), member(archive, LOG)
    except faults.UNPACKING:
        raise faults.Wrong(f"the movie of BizHawk has no {HEADER} and {LOG} that can be unpacked") from None
    told = dict(line.partition(" ")[::2] for line in header.splitlines())
    if told.get("Platform", "GEN") != "GEN":
        raise faults.Wrong(f"the movie is for the platform {told['Platform']}")
    for key in ("StartsFromSavestate", "StartsFromSaveRam"):
        if told.get(key, "0").lower() not in ("0", "false", ""):
            raise faults.Wrong("the movie begins at a saved state or memory of BizHawk")
    movie, notes = movie_of_log(log.splitlines())
    movie.pal = told.get("PAL", "0").lower() in ("1", "true")
    if movie.pal:
        notes.insert(0, "the movie is PAL's: run it with --pal")
    return movie, notes


def columns_of(key):
    """The names of a log's columns, group by group."""
    return [[name for name in group.split("|") if name] for group in key.split("#") if group]


def movie_of_log(lines):
    """The movie of a log of inputs, and notes on what is left out."""
    movie, groups = Movie(), None
    for line in lines:
        if line.startswith(KEY):
            groups = columns_of(line[len(KEY) :])
            names = [name for group in groups for name in group]
            movie.six = [f"P{pad} Mode" in names for pad in (1, 2)]
        elif line.startswith("|"):
            if groups is None:
                raise faults.Wrong("the log of inputs names no columns")
            movie.frames.append(frame_of(groups, line, len(movie.frames)))
    if groups is None:
        raise faults.Wrong("the log of inputs names no columns")
    others = {name[:2] for group in groups for name in group if name[:1] == "P" and name[1:2] in "345678"}
    return movie, [f"pads {', '.join(sorted(others))} are left out"] if others else []


def frame_of(groups, line, number):
    """The two words of a line, in which each column has one character, and a dot where it is not pressed."""
    parts = line.split("|")[1:-1]
    if [len(part) for part in parts] != [len(group) for group in groups]:
        raise faults.Wrong(f"frame {number} of the log has other columns than it names")
    words = [0, 0]
    for group, part in zip(groups, parts):
        for name, letter in zip(group, part):
            if letter == ".":
                continue
            pad, _, button = name.partition(" ")
            if name in ("Power", "Reset"):
                raise faults.Wrong(f"frame {number} presses {name}, which a recording has not")
            if pad in ("P1", "P2"):
                if button not in BUTTONS:
                    raise faults.Wrong(f"frame {number} presses {name}, which is no button")
                words[pad == "P2"] |= bit_of(button)
    return tuple(words)


def bk2_of(movie):
    """The bytes of a BK2 file; each of its parts has the same time, so that the same movie gives the same bytes."""
    counts = [12 if six else 8 for six in movie.six]
    key = "#Power|Reset|" + "".join(
        "#" + "".join(f"P{pad} {name}|" for name in LOG_PAD[:count]) for pad, count in enumerate(counts, 1)
    )
    lines = ["[Input]", KEY + key]
    for frame in movie.frames:
        parts = (
            "".join(letter if word & bit_of(name) else "." for name, letter in zip(LOG_PAD[:count], LETTERS))
            for word, count in zip(frame, counts)
        )
        lines.append(f"|..|{'|'.join(parts)}|")
    header = ["MovieVersion BizHawk v2.0.0", "Platform GEN", "Core Genplus-gx", "rerecordCount 0"]
    header += ["PAL 1"] if movie.pal else []
    packed = io.BytesIO()
    with zipfile.ZipFile(packed, "w", zipfile.ZIP_DEFLATED) as archive:
        for name, texts in ((HEADER, header), (LOG, [*lines, "[/Input]"])):
            archive.writestr(zipfile.ZipInfo(name), "".join(f"{text}\n" for text in texts), zipfile.ZIP_DEFLATED)
    return packed.getvalue()
