#!/usr/bin/env python3
"""Tests of rom.py: dumps and headers that were made by hand, and cartridges that run."""
import gzip
import io
import subprocess
import sys
import unittest
import zipfile

import common
import picture as cartridges

# Each byte of a plain image of two blocks tells where it stands, but for the header.
PLAIN = bytearray((at ^ at >> 8) & 0xFF for at in range(32_768))
PLAIN[0x100:0x200] = b"SEGA MEGA DRIVE (C)T-99 1994.MAY" + b"HAND".ljust(48) + b"MADE BY HAND".ljust(48) + (
    b"GM T-99001-00\0\x12\x34" + b"J6M".ljust(16) + b"\0\0\0\0\0\0\x9f\xff\0\xff\0\0\0\xff\xff\xff"
    b"RA\xf8\x20\0\x20\0\1\0\x20\x3f\xff" + bytes(12) + bytes(40) + b"E  " + bytes(13)
)
PLAIN = bytes(PLAIN)
# What the header says, in words; the image's last address is 9FFFh, so that 8,192 bytes are missing.
LINES = """system: SEGA MEGA DRIVE
copyright: (C)T-99 1994.MAY
domestic: HAND
overseas: MADE BY HAND
serial: GM T-99001-00
devices: J pad of three buttons, 6 pad of six buttons, M mouse
image: 000000 to 009fff
memory: RAM, odd bytes, with a battery, 200001 to 203fff
region: E (overseas, 50 Hz)
"""
HERE = """here: 8192 bytes that the header names are not there, and read FFh
here: the cartridge's own memory is left out: writes are lost, and only --save keeps a game
here: left out: mouse
here: a recording of version 2 gives a pad six buttons
here: for PAL: run it with --pal
"""


def interleaved(image):
    """As the Super Magic Drive writes it: of each block the bytes at 1, 3, 5 and so on, then those at 0, 2, 4."""
    blocks = [image[at : at + 16_384] for at in range(0, len(image), 16_384)]
    return b"".join(block[1::2] + block[0::2] for block in blocks)


def pairs_changed(image):
    return b"".join(image[at : at + 2][::-1] for at in range(0, len(image), 2))


def zipped(**files):
    packed = io.BytesIO()
    with zipfile.ZipFile(packed, "w", zipfile.ZIP_DEFLATED) as archive:
        for name, data in files.items():
            archive.writestr(name.replace("_", "."), data)
    return packed.getvalue()


def with_header(at, data):
    return PLAIN[:at] + data + PLAIN[at + len(data) :]


class Rom(common.Case):
    def told(self, data, *words):
        (self.folder / "dump").write_bytes(data)
        return self.script("rom.py", "dump", *words)

    def test_an_interleaved_block_by_hand(self):
        # The bytes at 0 to 3 of a block are those at 8,192, 0, 8,193 and 1 of what is written.
        data = interleaved(PLAIN)
        self.assertEqual(bytes([data[8192], data[0], data[8193], data[1]]), PLAIN[:4])

    def test_every_order_becomes_plain(self):
        dumps = {
            "plain": PLAIN, "bytes swapped": pairs_changed(PLAIN), "interleaved": interleaved(PLAIN),
            "interleaved behind 512 bytes": bytes([2, 3]) + bytes(510) + interleaved(PLAIN),
            "plain behind 512 bytes": bytes(512) + PLAIN, "gzip, plain": gzip.compress(PLAIN),
            "zip, bytes swapped": zipped(game_bin=pairs_changed(PLAIN), readme_txt="by hand"),
            "zip, interleaved": zipped(game_SMD=interleaved(PLAIN)),
        }  # fmt: skip
        for word, data in dumps.items():
            first = self.told(data, "out").splitlines()[0]
            self.assertEqual((first, self.bytes_of("out")), (f"dump: {word}, 32768 bytes", PLAIN))

    def test_the_image_is_written_whoever_reads_the_lines(self):
        (self.folder / "dump").write_bytes(PLAIN)
        words = [sys.executable, "-u", common.EXAMPLES / "rom.py", self.folder / "dump", self.folder / "out"]
        with subprocess.Popen(words, stdout=subprocess.PIPE) as script:
            script.stdout.close()
        self.assertEqual((script.returncode, self.bytes_of("out")), (0, PLAIN))

    def test_the_header_in_words(self):
        total = sum(PLAIN[0x200::2]) * 256 + sum(PLAIN[0x201::2])
        sums = f"checksum: 1234 computed {total & 0xFFFF:04x} differs\n"
        self.assertEqual(self.told(PLAIN), "dump: plain, 32768 bytes\n" + LINES + sums + HERE)

    def test_what_is_left_out(self):
        rows = [
            (with_header(0x100, b"SEGA 32X"), "here: the 32X is left out"),
            (with_header(0x3C0, b"MARS CHECK MODE "), "here: the 32X is left out"),
            (with_header(0x100, b"SEGA SSF"), "here: the mapper is left out"),
            (with_header(0x1B2, b"\xe8\x40"), "memory: EEPROM, with a battery, 200001 to 203fff"),
            (with_header(0x1B2, b"\xa0\x20"), "memory: RAM, words, without a battery, 200001 to 203fff"),
            (with_header(0x190, b"JG4 "), "here: left out: multitap, light gun"),
            (with_header(0x1BC, b"MOSEGA"), "here: the modem is left out"),
            (with_header(0x1F0, b"J  "), "here: for consoles of Japan, of which there is none: it may lock itself"),
            (with_header(0x1F0, b"JUE"), "region: JUE (Japan, 60 Hz; overseas, 60 Hz; overseas, 50 Hz)"),
            (with_header(0x1F0, b"4  "), "region: 4 (overseas, 60 Hz)"),
            (with_header(0x1F0, b"8  "), "here: for PAL: run it with --pal"),
            (PLAIN.ljust(4_194_306, b"\0"), "here: longer than 4194304 bytes is refused; mappers are left out"),
            (PLAIN[:0x140], "here: shorter than 512 bytes is refused"),
        ]
        for data, line in rows:
            self.assertIn(line, self.told(data).splitlines())

    def test_cartridges_run_as_before(self):
        images = self.cartridges()
        (self.folder / "sprites.bin").write_bytes(cartridges.cartridge(0x54, True))
        for image in (images["song"], images["busy"], self.folder / "sprites.bin"):
            data = image.read_bytes()
            data = data.ljust(-(-len(data) // 16_384) * 16_384, b"\0")
            kept = self.run_program("info", image).splitlines()[-1]
            for dump in (bytes(512) + interleaved(data), zipped(game_md=pairs_changed(data))):
                lines = self.told(dump, "out.bin").splitlines()
                self.assertEqual(self.bytes_of("out.bin"), data)
                self.assertIn(kept, lines)
                self.assertIn("here: nothing that the header names is left out", lines)
                self.run_program("run", "out.bin", "--cycles", 896_040)

    def test_faults_are_one_line(self):
        files = {"none": bytes(32_768), "empty": b"", "cut.zip": zipped(game_bin=PLAIN)[:-40]}
        files |= {"two.zip": zipped(a_bin=PLAIN, b_bin=PLAIN), "cut.gz": gzip.compress(PLAIN)[:-20]}
        for name, data in files.items():
            (self.folder / name).write_bytes(data)
            fault = self.script("rom.py", name, "out", status=2)
            self.assertTrue(fault.startswith(f"rom.py: {name}: "), fault)
        self.script("rom.py", "missing", status=2)
        self.script("rom.py", "missing", "none", status=2)
        self.told(PLAIN)
        self.script("rom.py", "dump", "dump", status=2)
        self.script("rom.py", status=2)
        self.assertFalse((self.folder / "out").exists())


if __name__ == "__main__":
    unittest.main()
