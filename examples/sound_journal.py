#!/usr/bin/env python3
"""Keeps of a journal what `md_prog vgm` needs, so that music may be as long as one likes.

    sound_journal.py [--from CYCLE] [--to CYCLE] JOURNAL... OUT

Each JOURNAL is a file, or - for standard input, through which a run of any length streams:

    md_prog run game.bin --cycles N --journal /dev/fd/3 3>&1 >/dev/null | sound_journal.py - game.jnl

Several are joined: they are the journals of one run that was cut, in their order. OUT gets the writes of both
processors to the Z80's space, its bus request, its reset and the sound generator, how the Z80's RAM moves, and
the last record, which tells the end. `md_prog vgm` makes the same file of OUT as of the whole journal.

`--from` begins the piece at a cycle, which becomes 0, so that no silence stands before it, and `--to` ends it
below one. What the records before say of the sound chips stands at the start of OUT, as writes of the Z80: each
register with its last value, and the keys that are down. A note that sounds there begins anew; where its
envelope and its phase were is told by no journal.

The journal of a run from a saved state tells only what was written since: voices that were set before are
missing, and a line on standard error says so. Make the journal of the run from power-on, and cut it by --from.

Status 2 comes where a file cannot be read or written or is no journal, where the journals do not follow one
another, and where nothing is left; OUT has a front part of its records then, or none.
"""
import bisect
import contextlib
import re
import struct
import sys

import faults

RECORD = struct.Struct(">QBBIH")
PIECE = RECORD.size * 65_536
# The chip that makes accesses of each kind, 0 to 12.
CHIP_OF = bytes([0] * 6 + [1] * 4 + [2, 3, 4]) + bytes([255] * 243)
BYTE, WORD, SUB_BYTE, YIELD, TAKE = 2, 3, 7, 8, 9
WANTED = re.compile(rb"[\x02\x03\x07\x08\x09]")
END = 1 << 39
# What `md_prog vgm` reads at most.
MOST = 67_108_864
# Writes of the Z80 are at least so many cycles apart.
GAP = 45
BUS_REQUEST, PSG_PORT, FM_PORT = 0xA11100, 0x7F11, 0x4000
KEYS = 0x28


def is_kept(kind, address):
    """Whether a write of a journal is one that `md_prog vgm` looks at."""
    if kind not in (BYTE, WORD):
        return True
    return address >> 16 == 0xA0 or address >> 8 in (0xA111, 0xA112) or address >> 4 == 0xC0001


class Reader:
    """The kept records of journals, one behind the other, below a cycle."""

    def __init__(self, limit):
        self.limit, self.count, self.kept = limit, 0, 0
        self.first, self.last = None, None

    def look(self, name, piece):
        """Checks a piece of a journal, and that it follows what was read; answers its part below the limit."""
        if len(piece) % RECORD.size:
            raise faults.Wrong(f"{name} ends within a record")
        if piece[9::16].translate(CHIP_OF) != piece[8::16] or key_of(piece, -1) < key_of(piece, 0):
            raise faults.Wrong(f"{name} is no journal")
        if self.last is not None and key_of(piece, 0) <= self.last[:2]:
            raise faults.Wrong(f"{name} has cycle {key_of(piece, 0)[0]} behind cycle {self.last[0]}")
        count = bisect.bisect_left(range(len(piece) // RECORD.size), self.limit, key=lambda k: key_of(piece, k)[0])
        if count:
            self.first = self.first or RECORD.unpack_from(piece)
            self.last = RECORD.unpack_from(piece, RECORD.size * (count - 1))
        self.count += count
        return piece[: RECORD.size * count]

    def wanted(self, names):
        """The records that are kept."""
        key = (-1, 0)
        for name in names:
            for piece in pieces(name):
                piece = self.look(name, piece)
                for found in WANTED.finditer(piece[9::16]):
                    record = RECORD.unpack_from(piece, RECORD.size * found.start())
                    if is_kept(record[2], record[3]):
                        if record[:2] <= key:
                            raise faults.Wrong(f"{name} has cycle {record[0]} behind cycle {key[0]}")
                        key = record[:2]
                        self.kept += 1
                        yield record

    def records(self, names):
        """The records that are kept, and behind them the last one, where it is none of these."""
        record = None
        for record in self.wanted(names):
            yield record
        if self.last is not None and self.last != record:
            yield self.last

    def lacks_voices(self):
        """Whether it is of a run that began at a saved state, as far as its journal tells."""
        return self.first is not None and self.first[0] > 0 and self.count > self.kept + 1


def key_of(piece, number):
    """The cycle and the chip of a record, also from the end."""
    at = RECORD.size * number % len(piece)
    return int.from_bytes(piece[at : at + 8], "big"), piece[at + 8]


def pieces(name):
    """The bytes of a file, or of standard input, piece by piece; each piece but the last is PIECE long."""
    with contextlib.nullcontext(sys.stdin.buffer) if name == "-" else open(name, "rb") as file:
        while piece := file.read(PIECE):
            yield piece


class Fm:
    """What the FM chip's registers hold, by part: as the writes leave them."""

    def __init__(self):
        self.registers, self.latches, self.keys = ({}, {}), ({}, {}), {}

    def write(self, part, register, value):
        """A high half of a frequency waits for its low half; register 28 is the keys."""
        if is_high(part, register):
            self.latches[part][register] = value
        elif part == 0 and register == KEYS:
            if value % 4 != 3:
                self.keys[value % 8] = value
        else:
            if is_high(part, register + 4):
                self.registers[part][register + 4] = self.latches[part].get(register + 4, 0)
            self.registers[part][register] = value

    def writes(self):
        """Writes that bring a chip at power-on there: part, register and value."""
        for part in (0, 1):
            held = self.registers[part]
            for register in sorted(r for r in held if not is_high(part, r)):
                if is_high(part, register + 4):
                    yield part, register + 4, held[register + 4]
                yield part, register, held[register]
            yield from ((part, register, value) for register, value in sorted(self.latches[part].items()))
        yield from ((0, KEYS, value) for _, value in sorted(self.keys.items()) if value >= 0x10)


def is_high(part, register):
    """Whether a register is the high half of a frequency."""
    return 0xA4 <= register <= 0xA6 or part == 0 and 0xAC <= register <= 0xAE


class Psg:
    """What the sound generator's eight registers hold: three periods and the noise, each with its volume."""

    def __init__(self):
        self.selected, self.held = None, {}

    def write(self, value):
        """With bit 7 a byte selects a register and has its low four bits; else a period gets its high six."""
        if value >= 0x80:
            self.selected = value >> 4 & 7
        register = self.selected or 0
        if register not in (0, 2, 4):
            self.held[register] = value & 15
        elif value >= 0x80:
            self.held[register] = self.held.get(register, 0) & 0x3F0 | value & 15
        else:
            self.held[register] = self.held.get(register, 0) & 15 | (value & 0x3F) << 4

    def bytes(self):
        """Bytes that bring a sound generator at power-on there; the last selects the register that was selected."""
        others = [register for register in sorted(self.held) if register != self.selected]
        for register in others + [self.selected] * (self.selected is not None):
            value = self.held[register]
            yield 0x80 | register << 4 | value & 15
            if register in (0, 2, 4):
                yield value >> 4


class Before:
    """What the records before a piece leave: both sound chips, the bus, and the FM chip's two latches."""

    def __init__(self):
        self.fm, self.psg = Fm(), Psg()
        self.requests, self.moved, self.chosen = False, False, [0, 0]

    def passed(self, record):
        """Goes on behind a record."""
        _, _, kind, address, value = record
        if kind in (YIELD, TAKE):
            self.moved = kind == YIELD if value else self.moved
        elif kind == SUB_BYTE:
            self.space(address, value)
        elif kind in (BYTE, WORD):
            self.main(kind == WORD, address, value)

    def main(self, is_word, address, value):
        """A write of the 68000. The Z80's space, its bus and its reset take the upper byte of a word."""
        upper = value >> 8 if is_word else value
        if address >> 16 == 0xA0 and self.requests and self.moved:
            self.space(address & 0xFFFF, upper)
        elif address >> 8 == 0xA111 and (is_word or address % 2 == 0):
            self.requests = upper % 2 == 1
        elif address >> 8 == 0xA112 and (is_word or address % 2 == 0) and upper % 2 == 0:
            self.fm, self.chosen = Fm(), [0, 0]
        elif 0xC00010 <= address < 0xC00018 and (is_word or address % 2 == 1):
            self.psg.write(value & 0xFF)

    def space(self, address, value):
        """A byte at an address of the Z80."""
        if address == PSG_PORT:
            self.psg.write(value)
        elif FM_PORT <= address < 0x6000:
            part = address >> 1 & 1
            if address % 2:
                self.fm.write(part, self.chosen[part], value)
            else:
                self.chosen[part] = value

    def sounds(self):
        """The addresses and values of the Z80's writes that set the sound chips."""
        for value in self.psg.bytes():
            yield PSG_PORT, value
        chosen = [0, 0]
        for part, register, value in self.fm.writes():
            yield FM_PORT + 2 * part, register
            yield FM_PORT + 2 * part + 1, value
            chosen[part] = register
        for part in (0, 1):
            if self.chosen[part] != chosen[part]:
                yield FM_PORT + 2 * part, self.chosen[part]

    def records(self):
        """Records from cycle 0 on that bring a console at power-on there, each GAP behind the last."""
        tails = [(1, SUB_BYTE, address, value) for address, value in self.sounds()]
        tails += [(0, WORD, BUS_REQUEST, 0x100)] * self.requests + [(1, YIELD, 0, 1)] * self.moved
        return [(GAP * k, *tail) for k, tail in enumerate(tails)]


def cut(records, first):
    """The records from a cycle on, shifted, behind those that say what was before."""
    before, shift = Before(), None
    for record in records:
        if record[0] < first:
            before.passed(record)
            continue
        if shift is None:
            lead = before.records()
            yield from lead
            shift = GAP * len(lead) - first
        yield (record[0] + shift, *record[1:])


def write(records, out):
    """Writes the records; answers how many there are, and the cycle of the last."""
    count, cycle = 0, 0
    with open(out, "wb") as file:
        for count, record in enumerate(records, 1):
            file.write(RECORD.pack(*record))
            cycle = record[0]
    return count, cycle


def words_of(arguments):
    """The command line, read."""
    parser = faults.Parser(__doc__)
    parser.add_argument("--from", type=faults.number, default=0, dest="first", metavar="CYCLE")
    parser.add_argument("--to", type=faults.number, default=END, dest="last", metavar="CYCLE")
    parser.add_argument("journals", metavar="JOURNAL", nargs="+")
    parser.add_argument("out", metavar="OUT")
    return parser.parse_args(arguments)


def main():
    words = words_of(sys.argv[1:])
    if words.out in words.journals:
        raise faults.Wrong(f"{words.out} is both read and written")
    reader = Reader(words.last)
    count, cycle = write(cut(reader.records(words.journals), words.first), words.out)
    if not count:
        raise faults.Wrong(f"no record stands from cycle {words.first} on and below {words.last}")
    print(f"{reader.count} records, {count} kept, {RECORD.size * count} bytes, to cycle {cycle}", flush=True)
    if reader.lacks_voices():
        lack = f"the journal begins at cycle {reader.first[0]}: voices that were set before are missing"
        print(f"{lack}; make it from power-on and cut it by --from", file=sys.stderr)
    if RECORD.size * count > MOST:
        raise faults.Wrong(f"{words.out} has more than {MOST} bytes, which is too long for md_prog vgm: cut it")


if __name__ == "__main__":
    sys.exit(faults.ending(main))
