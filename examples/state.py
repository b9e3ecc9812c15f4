#!/usr/bin/env python3
"""Prints what a saved state holds, makes pictures of its video memory, or compares two states.

    state.py [--tiles OUT] [--palette N] [--plane-a OUT] [--plane-b OUT] [--window OUT] [--picture OUT]
             STATE [PART...]
    state.py diff STATE OTHER

The PARTs are `file`, `68000`, `z80`, `vdp`, `colours`, `sprites`, `fm`, `psg`, `board`, `z80ram`, `ram` and
`vram`; all but the last two where none is named. The last three are dumps in hexadecimal, in which `*` stands
for rows that are the one before. Sprites are those of the list, from 0 on along the links. Registers of the sound
chips are as their last samples left them; writes that are held come to them with the next ones.

OUT is a picture, PNG or PPM by its ending: of all 2,048 patterns, 32 a row, in one of four palettes, 0 if not
given; of a whole plane or the window, in whose clear dots the backdrop shows; of what was drawn of the picture,
whose rows from the line of the state on are black.

`diff` prints each field that is not the same in both, with both values, and of memories the places that are
not, the first eight of each. It ends with status 0 where both are the same, with 1 where not. Status 2 comes
where a file cannot be read or written or is no saved state.
"""
import sys

import faults
import pictures
import state_layout
import state_told
import state_video

DEFAULT = ["file", "68000", "z80", "vdp", "colours", "sprites", "fm", "psg", "board", "z80ram"]
MOST_PLACES = 8


def differences(chip, name, width, one, other):
    """Lines for a field that differs: one, or of a list or a memory one for each place."""
    told = state_told.value
    if isinstance(one, int):
        yield f"{chip} {name}: {told(name, width, one)} -> {told(name, width, other)}"
        return
    places = [at for at in range(len(one)) if one[at] != other[at]]
    most = MOST_PLACES if isinstance(one, bytes) else len(places)
    for at in places[:most]:
        where = f"{name} {at:04x}" if isinstance(one, bytes) else state_told.place(name, at)
        yield f"{chip} {where}: {told(name, width, one[at])} -> {told(name, width, other[at])}"
    if len(places) > most:
        yield f"{chip} {name}: {len(places) - most} more bytes"


def differ(one, other):
    """Prints where two states differ; the status."""
    left, right = (state_layout.read(name)[1] for name in (one, other))
    lines = []
    for field, (_, width, _) in state_layout.FIELDS.items():
        if left[field] != right[field]:
            lines += differences(*field, width, left[field], right[field])
    print("\n".join(lines) or "the same")
    return 1 if lines else 0


def make_pictures(words, fields):
    """Writes the pictures that are asked for."""
    vdp = state_told.of_chip(fields, "VDP")
    made = {"a": words.plane_a, "b": words.plane_b, "window": words.window}
    for which, out in made.items():
        if out is not None:
            pictures.write(out, pictures.plane(vdp, *state_video.plane(vdp, which)))
    if words.tiles is not None:
        pictures.write(words.tiles, pictures.tiles(vdp, words.palette))
    if words.picture is not None:
        height = 240 if fields["file", "region"] else 224
        pictures.write(words.picture, (320, height, fields["drawing", "picture"][: 960 * height]))


def words_of(arguments):
    """The command line, read."""
    parser = faults.Parser(__doc__)
    if arguments[:1] == ["diff"]:
        parser.add_argument("diff")
        parser.add_argument("state", metavar="STATE")
        parser.add_argument("other", metavar="OTHER")
        return parser.parse_args(arguments)
    for name in ("tiles", "plane-a", "plane-b", "window", "picture"):
        parser.add_argument(f"--{name}", metavar="OUT")
    parser.add_argument("--palette", type=int, choices=range(4), default=0, metavar="N")
    parser.add_argument("state", metavar="STATE")
    parser.add_argument("parts", metavar="PART", nargs="*")
    words = parser.parse_args(arguments)
    for part in words.parts:
        if part not in state_told.PARTS:
            parser.error(f"there is no part {part}")
    return words


def main():
    words = words_of(sys.argv[1:])
    if "other" in words:
        return differ(words.state, words.other)
    version, fields = state_layout.read(words.state)
    make_pictures(words, fields)
    drawn = any((words.tiles, words.plane_a, words.plane_b, words.window, words.picture))
    for part in words.parts or ([] if drawn else DEFAULT):
        print("\n".join(state_told.PARTS[part](version, fields)))


if __name__ == "__main__":
    sys.exit(faults.ending(main))
