#!/usr/bin/env python3
"""Tests of state.py: places of the manual's table, states and memories that were made by hand, and runs."""
import struct
import unittest
import zlib

import common
import picture as cartridges
import pictures
import state_layout
import state_video

FRAME, PICTURE, PPM_HEAD = 896_040, 215_055, 15
# Places that the manual's tables name.
PLACES = {
    ("file", "cycle"): 40, ("file", "region"): 48, ("68000", "next event"): 49, ("68000", "stage"): 57,
    ("68000", "start"): 58, ("68000", "SR"): 138, ("68000", "stopped"): 140, ("68000", "halted"): 141,
    ("68000", "halted since"): 143, ("68000", "cause"): 151, ("68000", "number of answers"): 152,
    ("68000", "transfer words"): 221, ("68000", "transfer cost"): 225, ("68000", "work RAM"): 227,
    ("Z80", "next event"): 65_763, ("Z80", "IFF1"): 65_806, ("Z80", "mode"): 65_808, ("Z80", "resets seen"): 65_811,
    ("Z80", "cause"): 65_819, ("Z80", "RAM is the bus's"): 65_825, ("Z80", "RAM"): 65_826, ("Z80", "bank"): 74_018,
    ("VDP", "register"): 74_020, ("VDP", "CRAM"): 139_580, ("VDP", "VSRAM"): 139_708, ("VDP", "code"): 139_789,
    ("VDP", "going on"): 139_793, ("VDP", "next byte"): 139_803, ("VDP", "Z80's interrupt from"): 139_816,
    ("VDP", "240 lines"): 139_832, ("drawing", "picture"): 139_843, ("FM port", "timer A runs"): 370_249,
    ("FM port", "writes held"): 370_269, ("FM", "next batch"): 382_559, ("FM", "oscillator"): 383_088,
    ("FM", "channel 1 operator 1 phase"): 383_092, ("FM", "channel 1 operator 2 attenuation"): 383_104,
    ("FM", "last outputs"): 383_284, ("PSG port", "writes held"): 383_316, ("PSG", "latch"): 393_558,
    ("PSG", "noise"): 393_565, ("PSG", "shift register"): 393_582, ("board", "resets"): 393_586,
    ("board", "pad 1 word"): 393_598, ("board", "pad 1 falls"): 393_602, ("board", "pad 2 last fall"): 393_612,
}  # fmt: skip
# Bytes of a state by their place: cycle 1,800,000, which is frame 2 and line 2 (1,800,000 = 2 * 896,040 + 7,920,
# and 7,920 is in the third line of 3,420), D0, PC 204h, SR 2704h, VDP registers, a colour, pad 1 with A and Up.
SET = {
    0: b"MDSTATE3", 40: struct.pack(">Q", 1_800_000), 49: struct.pack(">Q", 1_800_014), 66: b"\x12\x34\x56\x78",
    134: b"\0\0\2\4", 138: b"\x27\x04", 74_021: b"\x44", 74_039: b"\xff\x0f\0\0\x80", 139_582: b"\x0e\x4a",
    393_598: b"\0\x41", 393_558: b"\1\1\x7d", 393_566: b"\0",
}  # fmt: skip


def made(changes=SET):
    """The bytes of a state: 0 but for some."""
    data = bytearray(393_620)
    for at, value in changes.items():
        data[at : at + len(value)] = value
    return bytes(data)


def older(data, version):
    """A state of now as one of an older version, where what that has not is 0."""
    if version == 2:
        return b"MDSTATE2" + data[8:-18]
    parts = data[8:48], data[49:139_832], data[139_833 : 139_843 + 224 * 960], data[370_243:-18]
    return b"MDSTATE1" + b"".join(parts)


def dots_of_png(data):
    """Width, height and dots of a PNG file without filters; each part's sum has to be right."""
    parts, at = {}, 8
    while at < len(data):
        length, kind = struct.unpack_from(">I4s", data, at)
        parts[kind] = data[at + 8 : at + 8 + length]
        assert zlib.crc32(kind + parts[kind]) == int.from_bytes(data[at + 8 + length : at + 12 + length], "big")
        at += 12 + length
    width, height = struct.unpack_from(">II", parts[b"IHDR"])
    rows = zlib.decompress(parts[b"IDAT"])
    assert len(rows) == height * (3 * width + 1)
    return width, height, b"".join(rows[k + 1 : k + 1 + 3 * width] for k in range(0, len(rows), 3 * width + 1))


class Layout(unittest.TestCase):
    def test_fields_stand_where_the_manual_says(self):
        self.assertEqual({field: state_layout.FIELDS[field][0] for field in PLACES}, PLACES)
        at, width, count = list(state_layout.FIELDS.values())[-1]
        self.assertEqual(at + width * count, 393_620)


class Pictures(unittest.TestCase):
    def setUp(self):
        # Pattern 1 has 1 at its upper left and 2 at its lower right; colours 1 and 2 are red and green, colour 17
        # is blue; the backdrop is colour 3, white. Names at C000h, 32 by 32 cells.
        vram = bytearray(0x1_0000)
        vram[32], vram[63] = 0x10, 0x02
        vram[0xC000:0xC008] = b"\x00\x01\x08\x01\x10\x01\x20\x01"
        cram = [0] * 64
        cram[1], cram[2], cram[3], cram[17] = 0x00E, 0x0E0, 0xEEE, 0xE00
        self.vdp = {"VRAM": bytes(vram), "CRAM": cram, "register": [0, 0, 0x30, 0, 0, 0, 0, 3] + [0] * 16}

    def dot(self, picture, x, y):
        width, _, dots = picture
        return tuple(dots[3 * (width * y + x) :][:3])

    def test_patterns(self):
        picture = pictures.tiles(self.vdp, 0)
        self.assertEqual(picture[:2], (256, 512))
        self.assertEqual(self.dot(picture, 8, 0), (252, 0, 0))
        self.assertEqual(self.dot(picture, 15, 7), (0, 252, 0))
        self.assertEqual(self.dot(picture, 9, 0), (0, 0, 0))
        self.assertEqual(self.dot(pictures.tiles(self.vdp, 1), 8, 0), (0, 0, 252))

    def test_a_plane_turns_its_cells(self):
        self.assertEqual(state_video.plane(self.vdp, "a"), (0xC000, 32, 32))
        picture = pictures.plane(self.vdp, 0xC000, 32, 32)
        self.assertEqual(picture[:2], (256, 256))
        self.assertEqual(self.dot(picture, 0, 0), (252, 0, 0))
        self.assertEqual(self.dot(picture, 1, 0), (252, 252, 252))
        self.assertEqual(self.dot(picture, 15, 0), (252, 0, 0))
        self.assertEqual(self.dot(picture, 8, 7), (0, 252, 0))
        self.assertEqual(self.dot(picture, 16, 7), (252, 0, 0))
        self.assertEqual(self.dot(picture, 23, 0), (0, 252, 0))
        self.assertEqual(self.dot(picture, 24, 0), (0, 0, 252))

    def test_a_png_file_holds_the_dots(self):
        picture = 2, 2, bytes(range(12))
        self.assertEqual(dots_of_png(pictures.png(*picture)), picture)


class State(common.Case):
    def told(self, *parts, data=made()):
        (self.folder / "state").write_bytes(data)
        return self.script("state.py", "state", *parts).splitlines()

    def test_fields_in_words(self):
        self.assertEqual(self.told("file")[0], "MDSTATE3, NTSC, cycle 1800000: frame 2, line 2")
        lines = self.told("68000")
        self.assertIn("D0 12345678", lines[1])
        self.assertIn("PC 00000204 SR 2704 -S210--Z--", lines[3])
        lines = self.told("vdp")
        self.assertIn("  01 mode 2             44  display on, vertical interrupt off, DMA off, 28 rows of cells", lines)
        self.assertIn("registers ask for a fill of 4095 bytes", lines[1])
        lines = self.told("colours")
        self.assertEqual(lines[0][:18], "palette 0: 000 e4a")
        self.assertEqual(lines[1][:17], "  #000000 #b448fc")
        self.assertIn("  pad 1: Up A pressed; data 00, control 00, 0 falls", self.told("board"))
        # 53,693,175 / 480 / 381 = 293.6
        self.assertEqual(self.told("psg")[1], "  tone 1: period 381, 293.6 Hz, 0 dB below full")

    def test_held_writes(self):
        # Two writes to the FM chip, the second a reset, and one to the sound generator.
        held = {370_269: b"\0\2", 370_271: struct.pack(">QBBBBQBBBB", 1_799_000, 0, 1, 0xB4, 0xC0, 1_799_900, 0, 2, 0, 0)}
        held |= {383_316: b"\0\1", 383_318: struct.pack(">QBB", 1_799_500, 1, 0x9F)}
        data = made({**SET, **held})
        lines = self.told("fm", data=data)
        self.assertEqual(lines[2], "  held for the next samples: at cycle 1799000 part 2 register b4 c0")
        self.assertEqual(lines[3], "  held for the next samples: at cycle 1799900 a reset")
        self.assertEqual(self.told("psg", data=data)[1], "  held for the next samples: at cycle 1799500 9f")

    def test_older_versions(self):
        for version in (1, 2):
            for part in ("68000", "z80", "vdp", "colours", "fm", "psg", "vram"):
                self.assertEqual(self.told(part, data=older(made(), version)), self.told(part))
        changed = older(made({**SET, 393_598: bytes(2), 74_100: b"\7"}), 1)
        self.assertIn("  0030 00 00 00 00 00 00 00 00 07 00 00 00 00 00 00 00", self.told("vram", data=changed))

    def test_dumps_leave_out_rows_that_are_the_same(self):
        lines = self.told("z80ram", data=made({**SET, 65_826 + 0x1FF0: b"\xaa"}))
        self.assertEqual(lines[1:3], ["  0000" + " 00" * 16, "  *"])
        self.assertEqual(lines[3:], ["  1ff0 aa" + " 00" * 15])

    def test_two_states_by_field(self):
        (self.folder / "one").write_bytes(made())
        changes = {74_021: b"\x54", 66: bytes(4), 74_044: b"\x66", 139_582: b"\0\0"}
        (self.folder / "other").write_bytes(made({**SET, **changes}))
        want = ["68000 D0: 12345678 -> 00000000", "VDP register 01 mode 2: 44 -> 54"]
        want += ["VDP VRAM 0000: 00 -> 66", "VDP CRAM 1: 0e4a -> 0000", ""]
        self.assertEqual(self.script("state.py", "diff", "one", "other", status=1), "\n".join(want))
        self.assertEqual(self.script("state.py", "diff", "one", "one"), "the same\n")

    def test_faults_are_one_line(self):
        (self.folder / "state").write_bytes(made())
        (self.folder / "short").write_bytes(made()[:-1])
        (self.folder / "long").write_bytes(made() + b"\0")
        (self.folder / "region").write_bytes(made({**SET, 48: b"\2"}))
        for words in (["short"], ["long"], ["region"], ["missing"], ["state", "part"], ["--tiles", "a.gif", "state"]):
            self.script("state.py", *words, status=2)
        for words in (["--palette", "4", "state"], ["diff", "state"], ["diff", "state", "short"], []):
            self.script("state.py", *words, status=2)


class Runs(common.Case):
    def saved(self, image, frames=30):
        self.run_program("run", image, "--cycles", frames * FRAME, "--save", "state", "--frames", "frames")

    def sprites_image(self):
        (self.folder / "sprites.bin").write_bytes(cartridges.cartridge(0x54, True))
        return self.folder / "sprites.bin"

    def test_sprites_are_those_of_the_cartridge(self):
        # bench/picture.py: 80 of 4 by 4 cells, 20 a row, 15 and 32 dots apart, palette 3, 32 patterns in turn.
        self.saved(self.sprites_image())
        want = ["sprites: 80 in the list, table at f000"]
        for n in range(80):
            place = f"x {15 * (n % 20):>4}, y {32 * (n // 20):>4}"
            want.append(f"  {n:>2}: {place}, 4 by 4 cells, pattern {1 + n % 32:03x}, palette 3")
        self.assertEqual(self.script("state.py", "state", "sprites").splitlines(), want)

    def test_what_was_drawn_is_the_last_picture(self):
        for image in (self.sprites_image(), *self.cartridges().values()):
            self.saved(image)
            self.script("state.py", "--picture", "picture.ppm", "--tiles", "tiles.png", "state")
            self.assertEqual(self.bytes_of("picture.ppm"), self.bytes_of("frames")[-PICTURE:])
            self.assertEqual(dots_of_png(self.bytes_of("tiles.png"))[:2], (256, 512))

    def test_a_plane_that_does_not_scroll_is_the_picture(self):
        # examples/pads shows plane A alone, 64 cells wide, from its upper left on.
        self.saved(self.assembled(common.EXAMPLES / "pads" / "pads.asm"))
        self.script("state.py", "--plane-a", "a.png", "--plane-b", "b.png", "--window", "w.ppm", "state")
        width, _, dots = dots_of_png(self.bytes_of("a.png"))
        picture = self.bytes_of("frames")[-PICTURE:][PPM_HEAD:]
        for y in range(224):
            self.assertEqual(dots[3 * width * y :][:960], picture[960 * y : 960 * y + 960], y)

    def test_registers_of_a_song(self):
        # Behind 60 frames the third note sounds: 232Bh is block 4 and number 811.
        self.saved(self.cartridges()["song"], 60)
        lines = self.script("state.py", "state", "fm").splitlines()
        self.assertIn("number 811, block 4, 329.6 Hz, heard left and right, algorithm 4, feedback 0", lines[2])
        want = "    operator 4: detune 0, multiple 1, level 8, scale 0, attack 31, decay 4, sustain 0, release 15, sustain level 2"
        self.assertEqual(lines[9], want)
        self.assertEqual(lines[11:], [f"  channel {n}: all registers are 0" for n in range(2, 7)])


if __name__ == "__main__":
    unittest.main()
