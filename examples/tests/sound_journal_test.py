#!/usr/bin/env python3
"""Tests of sound_journal.py: rows that were worked out by hand, and journals of whole runs."""
import struct
import unittest

import common
import sound_journal
import vgm

RECORD = struct.Struct(">QBBIH")
MAIN, SUB, VDP = 0, 1, 2
BYTE, WORD, SUB_BYTE, HANDS, TAKES, LINE = 2, 3, 7, 8, 9, 10
# A bus request, a register of the FM chip, the sound generator; between them a line, a read and a write that
# no sound chip hears.
WHOLE = [
    (0, VDP, LINE, 0, 0),
    (100, MAIN, WORD, 0xA11100, 0x100),
    (160, SUB, HANDS, 0, 1),
    (200, MAIN, 0, 0xA11100, 0),
    (300, MAIN, BYTE, 0xA04000, 0xA4),
    (328, MAIN, BYTE, 0xA04001, 0x22),
    (356, MAIN, BYTE, 0xA04000, 0xA0),
    (384, MAIN, BYTE, 0xA04001, 0x69),
    (412, MAIN, BYTE, 0xA04000, 0x28),
    (440, MAIN, BYTE, 0xA04001, 0xF1),
    (468, MAIN, BYTE, 0xA04000, 0xA4),
    (496, MAIN, BYTE, 0xA04001, 0x24),
    (524, MAIN, WORD, 0xC00000, 0x1234),
    (552, MAIN, BYTE, 0xC00011, 0x8E),
    (580, MAIN, BYTE, 0xC00011, 0x0F),
    (608, MAIN, BYTE, 0xC00011, 0x90),
    (3420, VDP, LINE, 1, 0),
    (4000, MAIN, WORD, 0xC00010, 0x9F),
    (6840, VDP, LINE, 2, 0),
]
KEPT = WHOLE[1:3] + WHOLE[4:12] + WHOLE[13:16] + WHOLE[17:]
# From cycle 4,000 on: both bytes of the first tone and its volume, whose register stays selected; the frequency
# as its low half took it, and the high half that waits; the keys of channel 2, the register that is latched, and
# the bus. Each stands 45 behind the last, so that cycle 4,000 becomes 16 times 45.
CUT = [(0x7F11, 0x8E), (0x7F11, 0x0F), (0x7F11, 0x90)]
CUT += [(0x4000, 0xA4), (0x4001, 0x22), (0x4000, 0xA0), (0x4001, 0x69), (0x4000, 0xA4), (0x4001, 0x24)]
CUT += [(0x4000, 0x28), (0x4001, 0xF1), (0x4000, 0xA4)]
CUT = [(45 * k, SUB, SUB_BYTE, *write) for k, write in enumerate(CUT)]
CUT += [(540, MAIN, WORD, 0xA11100, 0x100), (585, SUB, HANDS, 0, 1)]
CUT += [(630, MAIN, WORD, 0xC00010, 0x9F), (630 + 2840, VDP, LINE, 2, 0)]


def journal(records):
    return b"".join(RECORD.pack(*record) for record in records)


class Vectors(common.Case):
    def kept(self, *words, data=journal(WHOLE)):
        (self.folder / "whole").write_bytes(data)
        self.script("sound_journal.py", *words, "whole", "out")
        return list(RECORD.iter_unpack(self.bytes_of("out")))

    def test_what_no_sound_chip_hears_is_left_out(self):
        self.assertEqual(self.kept(), KEPT)

    def test_a_piece_begins_with_what_was_before(self):
        self.assertEqual(self.kept("--from", "4000"), CUT)

    def test_a_piece_ends_with_the_last_record_below_its_end(self):
        self.assertEqual(self.kept("--to", "4000"), KEPT[:-2] + [WHOLE[16]])

    def test_a_reset_forgets_the_fm_chip_alone(self):
        reset = [(620, MAIN, WORD, 0xA11200, 0)]
        whole = journal(WHOLE[:16] + reset + WHOLE[16:])
        left = [record[2:] for record in CUT[:3] + CUT[12:14]]
        self.assertEqual([record[2:] for record in self.kept("--from", "4000", data=whole)][:5], left)

    def test_journals_are_joined_and_stream(self):
        (self.folder / "second").write_bytes(journal(WHOLE[9:]))
        first = journal(WHOLE[:9])
        self.script("sound_journal.py", "-", "second", "out", data=first)
        self.assertEqual(list(RECORD.iter_unpack(self.bytes_of("out"))), KEPT)

    def test_faults_are_one_line(self):
        (self.folder / "whole").write_bytes(journal(WHOLE))
        (self.folder / "short").write_bytes(journal(WHOLE)[:-1])
        (self.folder / "chip").write_bytes(journal([(0, MAIN, LINE, 0, 0)]))
        (self.folder / "none").write_bytes(b"")
        for words in (["short"], ["chip"], ["none"], ["missing"], ["whole", "whole"], ["--from", "7000", "whole"]):
            self.script("sound_journal.py", *words, "out", status=2)
        self.script("sound_journal.py", "--from", "x", "whole", "out", status=2)
        self.script("sound_journal.py", "whole", "whole", status=2)
        self.script("sound_journal.py", status=2)


class Runs(common.Case):
    def test_the_vgm_file_is_the_same(self):
        for name, image in self.cartridges().items():
            self.run_program("run", image, "--cycles", 53762400, "--journal", "whole")
            self.script("sound_journal.py", "whole", "sound")
            self.run_program("vgm", "whole", "a.vgm")
            self.run_program("vgm", "sound", "b.vgm")
            self.assertEqual(self.bytes_of("a.vgm"), self.bytes_of("b.vgm"), name)
            self.assertLess(len(self.bytes_of("sound")), len(self.bytes_of("whole")))

    def test_a_cut_run_is_joined(self):
        image = self.cartridges()["song"]
        self.run_program("run", image, "--cycles", 53762400, "--journal", "whole", "--save", "end")
        self.run_program("run", image, "--cycles", 20000000, "--journal", "first", "--save", "state")
        self.run_program("run", image, "--cycles", 53762400, "--journal", "second", "--load", "state")
        self.script("sound_journal.py", "whole", "sound")
        self.script("sound_journal.py", "first", "second", "joined")
        self.assertEqual(self.bytes_of("sound"), self.bytes_of("joined"))

    def test_a_piece_sounds_as_the_run_does(self):
        # Two seconds of the song from cycle 53,693,175 on, which is its second one; the voice was set before it.
        # At these times no note begins or ends within a window; each takes a third of a second.
        image = self.cartridges()["song"]
        self.run_program("run", image, "--cycles", 161079525, "--journal", "whole", "--sound", "run.wav")
        self.script("sound_journal.py", "--from", "53693175", "whole", "sound")
        self.run_program("vgm", "sound", "piece.vgm")
        self.run_program("play", "piece.vgm", "piece.wav")
        for second in (0.05, 0.4, 0.75, 1.05, 1.4):
            run, piece = (vgm.tones_of(self.folder / f"{name}.wav", at) for name, at in (("run", 1 + second), ("piece", second)))
            self.assertTrue(piece and vgm.are_same(run[:1], piece[:1]), (second, run, piece))

    def test_registers_before_a_piece_are_those_of_the_saved_state(self):
        # Behind a batch's cycle all writes before it have reached the chips. Registers of the FM chip stand in a
        # state at 382,567, its latches behind, the sound generator at 393,558.
        cycle = 16128 * 2000 + 1
        for name, image in self.cartridges().items():
            self.run_program("run", image, "--cycles", cycle, "--journal", "whole", "--save", "state")
            state, before = self.bytes_of("state"), sound_journal.Before()
            for record in RECORD.iter_unpack(self.bytes_of("whole")):
                before.passed(record)
            for part in (0, 1):
                held = before.fm.registers[part]
                kept = state[382_567 + 256 * part :][:256]
                rows = [(n, held.get(n, 0), kept[n]) for n in range(256) if (part, n) != (0, 0x28)]
                self.assertEqual([row for row in rows if row[1] != row[2]], [], name)
            latches = [before.fm.latches[part].get(n, 0) for part in (0, 1) for n in (0xA4, 0xA5, 0xA6)]
            self.assertEqual(latches, list(state[383_079:383_085]), name)
            held = before.psg.held
            self.assertEqual(held.get(6, 0), state[393_565], name)
            self.assertEqual([held.get(n, 15) for n in (1, 3, 5, 7)], list(state[393_566:393_570]), name)
            self.assertEqual(held.get(0, 0), int.from_bytes(state[393_559:393_561], "big"), name)


if __name__ == "__main__":
    unittest.main()
