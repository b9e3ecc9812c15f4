#!/usr/bin/env python3
"""Tells what a dump of a cartridge is and what its header says, and writes the plain image.

    rom.py DUMP [OUT]

DUMP may be packed, as the one cartridge in a zip file or by gzip. It may be plain, or its bytes swapped in
pairs, or interleaved as the Super Magic Drive writes it: 512 bytes of its own, unless they were cut off, and
then blocks of 16,384, the bytes of odd addresses before those of even ones. Which it is goes by the text `SEGA`
at 100h or 101h. OUT gets the plain image, which `md_prog` runs.

Printed are the fields of the header, and behind `here:` what of them this board leaves out, and what its run
needs; a header may say less than a cartridge does.

Status 2 comes where a file cannot be read or written, or has no such text in any order.
"""
import gzip
import io
import os
import sys
import zipfile

import faults

HEAD, BLOCK = 512, 16_384
LEAST, MOST = 512, 4_194_304
MOST_DUMP = 1 << 26
ENDINGS = (".bin", ".md", ".gen", ".smd", ".32x", ".rom", ".68k", ".sgd")
# Letters of the header's devices, as the Genesis Software Manual and later headers have them.
DEVICES = {
    "J": "pad of three buttons", "6": "pad of six buttons", "0": "pad of the Master System", "A": "analogue joystick",
    "4": "multitap", "G": "light gun", "L": "activator", "M": "mouse", "B": "trackball", "T": "tablet", "V": "paddle",
    "K": "keyboard", "R": "serial port", "P": "printer", "C": "CD-ROM", "F": "floppy disk", "D": "download",
}  # fmt: skip
HERE = "J6"
# Bits of a region that is one hexadecimal digit.
REGIONS = ["Japan, 60 Hz", "Japan, 50 Hz", "overseas, 60 Hz", "overseas, 50 Hz"]
LETTERS = {"J": 1, "U": 4, "E": 8}
JAPANESE, PAL, NTSC = 3, 8, 4


def unpacked(name):
    """The bytes of a dump, and a word on how it was packed."""
    with open(name, "rb") as file:
        data = file.read(MOST_DUMP + 1)
    try:
        if data[:4] == b"PK\3\4":
            return only_member(data), "zip, "
        if data[:2] == b"\x1f\x8b":
            return gzip.GzipFile(fileobj=io.BytesIO(data)).read(MOST_DUMP), "gzip, "
    except faults.UNPACKING:
        raise faults.Wrong("it is packed, and cannot be unpacked") from None
    return data, ""


def only_member(data):
    """The one cartridge of a zip file."""
    with zipfile.ZipFile(io.BytesIO(data)) as archive:
        files = [info for info in archive.infolist() if not info.is_dir()]
        found = [info for info in files if info.filename.lower().endswith(ENDINGS)] or files
        if len(found) != 1:
            raise faults.Wrong(f"it packs {len(found)} files that may be cartridges, in place of one")
        with archive.open(found[0]) as file:
            return file.read(MOST_DUMP)


def is_marked(image):
    return image[0x100:0x104] == b"SEGA" or image[0x101:0x105] == b"SEGA"


def swapped(data):
    """Each pair of bytes changed about; an odd last one stays."""
    image = bytearray(data)
    even = len(data) // 2 * 2
    image[0:even:2], image[1:even:2] = data[1:even:2], data[0:even:2]
    return bytes(image)


def woven(data):
    """Blocks in each of which the bytes of odd addresses stand before those of even ones, as they belong."""
    image = bytearray(len(data))
    for at in range(0, len(data), BLOCK):
        half = at + BLOCK // 2
        image[at + 1 : at + BLOCK : 2], image[at : at + BLOCK : 2] = data[at:half], data[half : at + BLOCK]
    return bytes(image)


def orders(data):
    """What a dump may be: a word for it, and the image."""
    yield "plain", data
    yield "bytes swapped", swapped(data)
    if len(data) % BLOCK == HEAD:
        yield "interleaved behind 512 bytes", woven(data[HEAD:])
    if len(data) % BLOCK == 0:
        yield "interleaved", woven(data)
    if len(data) % 1024 == HEAD:
        yield "plain behind 512 bytes", data[HEAD:]


def plain(data):
    """The word and the image of the first order that has the mark."""
    for order, image in orders(data):
        if is_marked(image):
            return order, image
    raise faults.Wrong("it has no `SEGA` at 100h or 101h in any order")


def text(image, at, count):
    """A field without blanks at its end, with a dot for what is no letter."""
    shown = "".join(chr(byte) if 0x20 <= byte < 0x7F else "." for byte in image[at : at + count].rstrip(b"\0 "))
    return shown.rstrip()


def long(image, at):
    return int.from_bytes(image[at : at + 4], "big")


def region_bits(image):
    """The regions as four bits: letters, or one hexadecimal digit; none where the header says nothing."""
    letters = text(image, 0x1F0, 3).replace(" ", "").upper()
    if letters and all(letter in LETTERS for letter in letters):
        return sum({LETTERS[letter] for letter in letters})
    return int(letters, 16) if len(letters) == 1 and letters in "0123456789ABCDF" else 0


def kept_memory(image):
    """The cartridge's own memory in words, or nothing."""
    if image[0x1B0:0x1B2] != b"RA":
        return ""
    kind, way = image[0x1B2], image[0x1B3]
    bytes_of = {0x10: "even bytes", 0x18: "odd bytes"}.get(kind & 0x18, "words")
    what = "EEPROM" if way == 0x40 else f"RAM, {bytes_of}"
    battery = "with a battery" if kind & 0x40 else "without a battery"
    return f"{what}, {battery}, {long(image, 0x1B4):06x} to {long(image, 0x1B8):06x}"


def is_32x(image):
    return image[0x100:0x108] == b"SEGA 32X" or image[0x3C0:0x3C4] == b"MARS"


def sums(image):
    """The checksum that the header keeps, and that of the words from 200h on."""
    padded = image + b"\0" * (len(image) % 2)
    total = sum(padded[0x200::2]) * 256 + sum(padded[0x201::2])
    return int.from_bytes(image[0x18E:0x190], "big"), total & 0xFFFF


def header(image):
    """The lines of the header's fields."""
    yield f"system: {text(image, 0x100, 16)}"
    yield f"copyright: {text(image, 0x110, 16)}"
    yield f"domestic: {text(image, 0x120, 48)}"
    yield f"overseas: {text(image, 0x150, 48)}"
    yield f"serial: {text(image, 0x180, 14)}"
    devices = text(image, 0x190, 16).replace(" ", "")
    yield f"devices: {', '.join(f'{letter} {DEVICES.get(letter, str())}'.strip() for letter in devices)}"
    yield f"image: {long(image, 0x1A0):06x} to {long(image, 0x1A4):06x}"
    yield f"memory: {kept_memory(image) or 'none'}"
    bits = region_bits(image)
    known = "; ".join(name for bit, name in enumerate(REGIONS) if bits >> bit & 1)
    yield f"region: {text(image, 0x1F0, 3)}{f' ({known})' if known else ''}"
    kept, total = sums(image)
    yield f"checksum: {kept:04x} computed {total:04x} {'ok' if kept == total else 'differs'}"


def here(dump, image):
    """What this board leaves out of a dump, whose header is read from it with 0 behind, and what a run needs."""
    if len(dump) > MOST:
        yield f"longer than {MOST} bytes is refused; mappers are left out"
    if len(dump) < LEAST:
        yield f"shorter than {LEAST} bytes is refused"
    missing = long(image, 0x1A4) + 1 - len(dump)
    if 0 < long(image, 0x1A4) < MOST and missing > 0:
        yield f"{missing} bytes that the header names are not there, and read FFh"
    if is_32x(image):
        yield "the 32X is left out"
    if image[0x100:0x108] == b"SEGA SSF":
        yield "the mapper is left out"
    if kept_memory(image):
        yield "the cartridge's own memory is left out: writes are lost, and only --save keeps a game"
    devices = text(image, 0x190, 16).replace(" ", "")
    if image[0x1BC:0x1BE] == b"MO":
        yield "the modem is left out"
    left = [DEVICES[letter] for letter in DEVICES if letter in devices and letter not in HERE]
    if left:
        yield f"left out: {', '.join(left)}"
    if "6" in devices:
        yield "a recording of version 2 gives a pad six buttons"
    bits = region_bits(image)
    if bits & PAL and not bits & NTSC:
        yield "for PAL: run it with --pal"
    if bits and not bits & (PAL | NTSC):
        yield "for consoles of Japan, of which there is none: it may lock itself"


def words_of(arguments):
    """The command line, read."""
    parser = faults.Parser(__doc__)
    parser.add_argument("dump", metavar="DUMP")
    parser.add_argument("out", metavar="OUT", nargs="?")
    return parser.parse_args(arguments)


def main():
    words = words_of(sys.argv[1:])
    if words.out is not None and os.path.exists(words.out) and os.path.samefile(words.dump, words.out):
        raise faults.Wrong(f"{words.out} is the dump itself")
    try:
        data, packed = unpacked(words.dump)
        if len(data) > MOST_DUMP or not data:
            raise faults.Wrong("it is empty, or longer than any cartridge")
        order, image = plain(data)
    except faults.Wrong as fault:
        raise faults.Wrong(f"{words.dump}: {fault}") from None
    if words.out is not None:
        with open(words.out, "wb") as file:
            file.write(image)
    print(f"dump: {packed}{order}, {len(image)} bytes")
    padded = image.ljust(LEAST, b"\0")
    for line in header(padded):
        print(line.rstrip())
    for line in list(here(image, padded)) or ["nothing that the header names is left out"]:
        print(f"here: {line}")


if __name__ == "__main__":
    sys.exit(faults.ending(main))
