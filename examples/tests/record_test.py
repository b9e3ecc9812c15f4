#!/usr/bin/env python3
"""Tests of record.py: recordings and movies whose bytes were written out by hand, and runs with them."""
import io
import random
import unittest
import zipfile

import common

# Pad 1 has Up, A and X, and then nothing; pad 2 has Start, and then B.
TEXT = "pads 6 3\n1 Up A X / Start\n2 / B\n"
REC = b"MDREC002\0\1" + b"\0\0\0\3" + b"\4\x41\0\x80" + b"\0\0\0\x10" * 2
# In a movie of Gens 0 is pressed. From the lowest bit on: Up, Down, Left, Right, A, B, C, Start; X, Y, Z, Mode of
# pad 1 and of pad 2.
GMV = b"Gens Movie TESTA" + b"\5\0\0\0" + b"63\0\0" + b"by hand".ljust(40, b"\0")
GMV += b"\xee\x7f\xfe" + b"\xff\xdf\xff" * 2
KEY = "LogKey:#Power|Reset|" + "#P1 Up|P1 Down|P1 Left|P1 Right|P1 A|P1 B|P1 C|P1 Start|P1 X|P1 Y|P1 Z|P1 Mode|"
KEY += "#P2 Up|P2 Down|P2 Left|P2 Right|P2 A|P2 B|P2 C|P2 Start|"
LOG = ["[Input]", KEY, "|..|U...A...X...|.......S|", *["|..|............|.....B..|"] * 2, "[/Input]"]
HEADER = ["MovieVersion BizHawk v2.0.0", "Platform GEN", "GameName by hand", "StartsFromSavestate False"]
# Waits for one button and then fills work RAM at FF0000h with 1: Start of pad 1, where TH is low, and B of pad 2.
WAITS = """dc.w $00ff,$f000,$0000,$0200
org $100
dc.w $5345,$4741
org $200
move.b #$40,$00a1000%s.l
move.b #$%02x,$00a1000%s.l
waiting: btst #$%02x,$00a1000%s.l
bne.b waiting
move.w #$0001,$00ff0000.l
ended: bra.b ended
"""
CARTRIDGES = {"start": WAITS % ("9", 0x00, "3", 5, "3"), "b_of_two": WAITS % ("b", 0x40, "5", 4, "5")}
FRAME, WORK_RAM = 896_040, 227


def bk2(log=LOG, header=HEADER, **others):
    packed = io.BytesIO()
    with zipfile.ZipFile(packed, "w") as archive:
        for name, lines in (("Header.txt", header), ("Input Log.txt", log), *others.items()):
            archive.writestr(name, "\r\n".join(lines))
    return packed.getvalue()


# A file that asks for version 8.5 of the packing, which nobody has.
AT = bk2().index(b"PK\1\2") + 6
LATER = bk2()[:AT] + b"\x55" + bk2()[AT + 1 :]


class Record(common.Case):
    def made(self, data, ending="rec", *words):
        """What is made of a file's bytes."""
        (self.folder / "from").write_bytes(data if isinstance(data, bytes) else data.encode())
        self.script("record.py", *words, "from", f"to.{ending}")
        return self.bytes_of(f"to.{ending}")

    def test_all_kinds_become_a_recording(self):
        for data in (TEXT, REC, GMV, bk2()):
            self.assertEqual(self.made(data), REC)

    def test_a_recording_becomes_all_kinds(self):
        self.assertEqual(self.made(REC, "txt").decode(), TEXT)
        # No count of attempts and no name are written.
        self.assertEqual(self.made(REC, "gmv"), GMV[:16] + bytes(4) + b"63" + bytes(42) + GMV[64:])
        with zipfile.ZipFile(io.BytesIO(self.made(REC, "bk2"))) as archive:
            self.assertEqual(archive.read("Input Log.txt").decode().splitlines(), LOG)
            self.assertIn("Platform GEN", archive.read("Header.txt").decode().splitlines())

    def test_each_button_has_its_bit(self):
        names = ["Up", "Down", "Left", "Right", "B", "C", "A", "Start", "Z", "Y", "X", "Mode"]
        for bit, name in enumerate(names):
            data = self.made(f"1 {name}\n1 / {name}\n")
            words = (1 << bit).to_bytes(2, "big")
            self.assertEqual(data[-8:], words + bytes(2) + bytes(2) + words, name)
            self.assertEqual(self.made(f"1 {name.upper()}\n1 / {name.lower()}\n"), data)
            for ending in ("gmv", "bk2", "txt"):
                self.assertEqual(self.made(self.made(data, ending)), data, (name, ending))

    def test_round_trips(self):
        draw = random.Random(3)
        for six in (0, 1, 2, 3):
            masks = [0xFFF if six >> pad & 1 else 0xFF for pad in (0, 1)]
            frames = b"".join((draw.getrandbits(12) & mask).to_bytes(2, "big") for _ in range(300) for mask in masks)
            data = (b"MDREC002" + bytes([0, six]) if six else b"MDREC001") + b"\0\0\1\x2c" + frames
            for ending in ("gmv", "bk2", "txt"):
                self.assertEqual(self.made(self.made(data, ending)), data, (six, ending))

    def test_a_movie_of_pal_is_marked(self):
        data = self.made(REC, "gmv", "--pal")
        self.assertEqual(data[0x16], 0x80)
        with zipfile.ZipFile(io.BytesIO(self.made(data, "bk2"))) as archive:
            self.assertIn("PAL 1", archive.read("Header.txt").decode().splitlines())

    def test_columns_go_by_their_names(self):
        log = ["LogKey:#P2 B|P1 Start|#P3 Up|", "|BS|U|", "|..|.|"]
        self.assertEqual(self.made(bk2(log)), b"MDREC001\0\0\0\2" + b"\0\x80\0\x10" + bytes(4))

    def test_a_third_pad_is_left_out(self):
        three = GMV[:0x16] + b"\x20" + GMV[0x17:]
        self.assertEqual(self.made(three)[14:18], b"\0\x41\0\x80")

    def test_runs_go_by_a_movie(self):
        # Start of pad 1 in frame 20, and B of pad 2 in frame 30, out of 40.
        frames = [b"\xff\xff\xff"] * 40
        frames[20], frames[30] = b"\x7f\xff\xff", b"\xff\xdf\xff"
        (self.folder / "movie.gmv").write_bytes(GMV[:0x14] + b"33" + GMV[0x16:64] + b"".join(frames))
        self.script("record.py", "movie.gmv", "movie.bk2")
        self.script("record.py", "movie.bk2", "movie.rec")
        for name, at in (("start", 20), ("b_of_two", 30)):
            (self.folder / f"{name}.asm").write_text(CARTRIDGES[name])
            image = self.assembled(self.folder / f"{name}.asm")
            for frames, left in ((at, 0), (at + 1, 1)):
                cycles = ["--cycles", frames * FRAME, "--in", "movie.rec", "--save", "state"]
                self.run_program("run", image, *cycles)
                self.assertEqual(self.bytes_of("state")[WORK_RAM : WORK_RAM + 2], bytes([0, left]), (name, frames))

    def test_faults_are_one_line(self):
        files = {
            "button.txt": b"1 Up\n2 Select\n", "count.txt": b"x Up\n", "many.txt": b"1048577\n", "pads.txt": b"pads 4 3\n",
            "none.txt": b"\xff\xfe", "short.rec": REC[:-1], "long.rec": REC + b"\0", "head.rec": b"MDREC002",
            "bit.rec": b"MDREC001\0\0\0\1\1\0\0\0", "cut.gmv": GMV[:-1], "state.gmv": GMV[:0x16] + b"\x40" + GMV[0x17:],
            "cut.bk2": bk2()[:-30], "later.bk2": LATER, "power.bk2": bk2([KEY, LOG[2].replace("|..|", "|P.|")]), "key.bk2": bk2(LOG[2:]),
            "columns.bk2": bk2([KEY, "|..|U|S|"]), "nes.bk2": bk2(header=["Platform NES"]),
            "saved.bk2": bk2(header=["Platform GEN", "StartsFromSavestate True"]),
        }  # fmt: skip
        for name, data in files.items():
            (self.folder / name).write_bytes(data)
            fault = self.script("record.py", name, "out", status=2)
            self.assertTrue(fault.startswith(f"record.py: {name}: "), fault)
        self.script("record.py", "missing", "out", status=2)
        self.script("record.py", "one", status=2)
        self.assertFalse((self.folder / "out").exists())


if __name__ == "__main__":
    unittest.main()
