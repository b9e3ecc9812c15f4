"""Pictures of the VDP's memories, and files of pictures: PNG, or PPM of Netpbm."""
import struct
import zlib

import faults

# The levels of a colour as the frames file has them.
LEVEL = 36
PATTERNS_A_ROW, PATTERNS = 32, 2048


def colour(word):
    """Red, green and blue of a word of CRAM."""
    return bytes(LEVEL * (word >> shift & 7) for shift in (1, 5, 9))


def pattern_rows(vram, number, flip_across=False, flip_down=False):
    """The eight rows of a pattern, eight numbers of 0 to 15 each."""
    rows = []
    for at in range(32 * number, 32 * number + 32, 4):
        row = [half for byte in vram[at : at + 4] for half in (byte >> 4, byte & 15)]
        rows.append(row[::-1] if flip_across else row)
    return rows[::-1] if flip_down else rows


def tiles(vdp, palette):
    """All patterns in one palette, 32 a row: width, height and dots."""
    shown = [colour(word) for word in vdp["CRAM"][16 * palette : 16 * palette + 16]]
    rows = []
    for first in range(0, PATTERNS, PATTERNS_A_ROW):
        cells = [pattern_rows(vdp["VRAM"], first + k) for k in range(PATTERNS_A_ROW)]
        rows += [b"".join(shown[dot] for cell in cells for dot in cell[y]) for y in range(8)]
    return 8 * PATTERNS_A_ROW, len(rows), b"".join(rows)


def plane(vdp, base, across, down):
    """A plane of so many cells, whose names stand from an address on; clear dots show the backdrop."""
    shown, back = [colour(word) for word in vdp["CRAM"]], vdp["register"][7] & 0x3F
    vram, rows = vdp["VRAM"], []
    for line in range(down):
        cells = []
        for column in range(across):
            at = (base + 2 * ((line * across + column) % 4096)) % 0x1_0000
            name = vram[at] << 8 | vram[at + 1]
            palette = 16 * (name >> 13 & 3)
            drawn = pattern_rows(vram, name & 0x7FF, name & 0x800, name & 0x1000)
            cells.append([[palette + dot if dot else back for dot in row] for row in drawn])
        rows += [b"".join(shown[dot] for cell in cells for dot in cell[y]) for y in range(8)]
    return 8 * across, 8 * down, b"".join(rows)


def chunk(kind, data):
    """A part of a PNG file."""
    return struct.pack(">I", len(data)) + kind + data + struct.pack(">I", zlib.crc32(kind + data))


def png(width, height, dots):
    """A PNG file ("Portable Network Graphics Specification") of eight bits a colour, without filters."""
    head = struct.pack(">IIBBBBB", width, height, 8, 2, 0, 0, 0)
    rows = b"".join(b"\0" + dots[at : at + 3 * width] for at in range(0, len(dots), 3 * width))
    parts = chunk(b"IHDR", head) + chunk(b"IDAT", zlib.compress(rows, 9)) + chunk(b"IEND", b"")
    return b"\x89PNG\r\n\x1a\n" + parts


def write(name, picture):
    """Writes a picture, of the kind that the name's ending tells."""
    width, height, dots = picture
    if name.endswith(".png"):
        data = png(width, height, dots)
    elif name.endswith(".ppm"):
        data = b"P6\n%d %d\n255\n" % (width, height) + dots
    else:
        raise faults.Wrong(f"{name} ends neither in .png nor in .ppm")
    with open(name, "wb") as file:
        file.write(data)
