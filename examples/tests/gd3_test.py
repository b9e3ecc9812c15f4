#!/usr/bin/env python3
"""Tests of gd3.py: a tag that was written out by hand."""
import gzip
import unittest

import common

# A head of version 1.50 whose commands are the end alone.
VGM = b"Vgm " + (0x41 - 4).to_bytes(4, "little") + b"\x50\1\0\0" + bytes(40) + b"\x0c\0\0\0" + bytes(8) + b"\x66"
# Title `A`, system `M`, author é, and all else empty: fourteen units of two bytes.
TAG = b"Gd3 \0\1\0\0\x1c\0\0\0" + b"A\0\0\0" + b"\0\0" * 3 + b"M\0\0\0" + b"\0\0" + b"\xe9\0\0\0" + b"\0\0" * 4


def tagged():
    """The file with the tag: the head's fields at 04h and 14h tell its end, 69h - 4, and 41h - 14h."""
    whole = bytearray(VGM + TAG)
    whole[4], whole[0x14] = 0x41 + 12 + 28 - 4, 0x2D
    return bytes(whole)


class Gd3(common.Case):
    def setUp(self):
        super().setUp()
        (self.folder / "a.vgm").write_bytes(VGM)

    def test_a_tag_is_written(self):
        self.script("gd3.py", "--title", "A", "--system", "M", "--author", "é", "a.vgm", "b.vgm")
        self.assertEqual(self.bytes_of("b.vgm"), tagged())

    def test_a_tag_is_read(self):
        (self.folder / "b.vgm").write_bytes(tagged())
        self.assertEqual(self.script("gd3.py", "b.vgm"), "title: A\nsystem: M\nauthor: é\n")
        self.assertEqual(self.script("gd3.py", "a.vgm"), "")

    def test_a_text_is_kept_or_replaced(self):
        (self.folder / "b.vgz").write_bytes(gzip.compress(tagged()))
        self.script("gd3.py", "--title", "B", "--native-title", "日本", "b.vgz", "c.vgz")
        self.assertEqual(self.script("gd3.py", "c.vgz"), "title: B\nnative-title: 日本\nsystem: M\nauthor: é\n")
        self.script("gd3.py", "--title", "A", "--native-title", "", "c.vgz", "d.vgm")
        self.assertEqual(self.bytes_of("d.vgm"), tagged())

    def test_the_same_words_give_the_same_bytes(self):
        for name in ("b.vgz", "c.vgz"):
            self.script("gd3.py", "--title", "A", "a.vgm", name)
        self.assertEqual(self.bytes_of("b.vgz"), self.bytes_of("c.vgz"))

    def test_a_tagged_file_is_played_alike(self):
        images = self.cartridges()
        for name in ("song", "busy"):
            self.run_program("run", images[name], "--cycles", 26881200, "--journal", "journal")
            self.run_program("vgm", "journal", "made.vgm")
            self.script("gd3.py", "--title", name, "made.vgm", "tagged.vgm")
            for file in ("made", "tagged"):
                self.run_program("play", f"{file}.vgm", f"{file}.wav")
            self.assertEqual(self.bytes_of("made.wav"), self.bytes_of("tagged.wav"), name)

    def test_faults_are_one_line(self):
        (self.folder / "cut.vgm").write_bytes(tagged()[:-2])
        (self.folder / "packed.vgz").write_bytes(gzip.compress(VGM)[:-9])
        (self.folder / "none.vgm").write_bytes(VGM[4:])
        for words in (["cut.vgm"], ["packed.vgz"], ["none.vgm"], ["missing.vgm"], ["--title", "A", "a.vgm"], []):
            self.script("gd3.py", *words, status=2)


if __name__ == "__main__":
    unittest.main()
