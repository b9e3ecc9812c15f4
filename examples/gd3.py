#!/usr/bin/env python3
"""Puts texts into a VGM file, or prints those that it has.

    gd3.py [--title TEXT] [--game TEXT] [--system TEXT] [--author TEXT] [--date TEXT] [--by TEXT]
           [--notes TEXT] [--native-title TEXT] [--native-game TEXT] [--native-system TEXT]
           [--native-author TEXT] VGM OUT
    gd3.py VGM

The texts are those of the tag GD3 1.00 ("GD3 Specification 1.00", which goes with "VGM file format 1.50"):
eleven of them, in UTF-16, low byte first, behind the commands; the native ones are in the language of the
game's authors. The date is as `1991/07/26`, `1991/07` or `1991`, `--by` names who made the file. The system is
`Sega Mega Drive / Genesis` where no other is given. A tag that stands at the end already is replaced, and a
text that is not given is kept from it.

A file that was packed by gzip is read too, and OUT is packed where its name ends in `.vgz`; the same words
give the same bytes. `md_prog play` reads what is not packed, and looks at no text.

Status 2 comes where a file cannot be read or written or is no VGM file, or a text cannot stand in one.
"""
import gzip
import struct
import sys

import faults

# The order of the texts in a tag.
NAMES = ["title", "native-title", "game", "native-game", "system", "native-system"]
NAMES += ["author", "native-author", "date", "by", "notes"]
SYSTEM = "Sega Mega Drive / Genesis"
MARK, TAG_MARK, TAG_VERSION = b"Vgm ", b"Gd3 ", 0x100
# Fields of the head that tell how far from themselves the file ends, and the tag begins.
END_AT, TAG_AT = 0x04, 0x14
LEAST = 0x40


def read(name):
    """A VGM file's bytes, unpacked."""
    with open(name, "rb") as file:
        data = file.read()
    if data[:2] == b"\x1f\x8b":
        try:
            data = gzip.decompress(data)
        except faults.UNPACKING:
            raise faults.Wrong(f"{name} is packed, and cannot be unpacked") from None
    if data[:4] != MARK or len(data) < LEAST:
        raise faults.Wrong(f"{name} is no VGM file")
    return data


def field(data, at):
    """The place that a field of the head tells, or 0."""
    (behind,) = struct.unpack_from("<I", data, at)
    return at + behind if behind else 0


def parted(name, data):
    """The file without its tag, and the tag's texts."""
    at = field(data, TAG_AT)
    if not at:
        return data, [""] * len(NAMES)
    if data[at : at + 4] != TAG_MARK or len(data) < at + 12:
        raise faults.Wrong(f"{name} has no tag where its head says")
    (length,) = struct.unpack_from("<I", data, at + 8)
    body, rest = data[at + 12 : at + 12 + length], data[at + 12 + length :]
    if len(body) < length or rest:
        raise faults.Wrong(f"{name} does not end with its tag")
    try:
        texts = body.decode("utf-16-le").split("\0")
    except UnicodeDecodeError:
        raise faults.Wrong(f"{name} has a tag that is no text") from None
    if len(texts) != len(NAMES) + 1 or texts[-1]:
        raise faults.Wrong(f"{name} has a tag of {len(texts) - 1} texts")
    return data[:at], texts[:-1]


def tag_of(texts):
    """The tag of eleven texts."""
    body = b"".join(text.encode("utf-16-le") + b"\0\0" for text in texts)
    return TAG_MARK + struct.pack("<II", TAG_VERSION, len(body)) + body


def tagged(data, texts):
    """A file without a tag, with one."""
    whole = bytearray(data + tag_of(texts))
    struct.pack_into("<I", whole, TAG_AT, len(data) - TAG_AT)
    struct.pack_into("<I", whole, END_AT, len(whole) - END_AT)
    return bytes(whole)


def write(name, data):
    """Writes a file, packed without a time where its name asks for it."""
    if name.endswith(".vgz"):
        data = gzip.compress(data, 9, mtime=0)
    with open(name, "wb") as file:
        file.write(data)
    return len(data)


def words_of(arguments):
    """The command line, read."""
    parser = faults.Parser(__doc__)
    for name in NAMES:
        parser.add_argument(f"--{name}", metavar="TEXT")
    parser.add_argument("vgm", metavar="VGM")
    parser.add_argument("out", metavar="OUT", nargs="?")
    return parser.parse_args(arguments)


def main():
    words = words_of(sys.argv[1:])
    given = [getattr(words, name.replace("-", "_")) for name in NAMES]
    data, texts = parted(words.vgm, read(words.vgm))
    if words.out is None:
        if any(text is not None for text in given):
            raise faults.Wrong("a text is given, and no OUT")
        for name, text in zip(NAMES, texts):
            if text:
                print(f"{name}: {text}")
        return
    texts = [old if new is None else new for old, new in zip(texts, given)]
    texts[NAMES.index("system")] = texts[NAMES.index("system")] or SYSTEM
    try:
        whole = tagged(data, texts)
    except UnicodeEncodeError:
        raise faults.Wrong("a text is no text in UTF-8") from None
    print(f"bytes {write(words.out, whole)}")


if __name__ == "__main__":
    sys.exit(faults.ending(main))
