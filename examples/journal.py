#!/usr/bin/env python3
"""Prints a journal as text, or the first difference of two.

    journal.py [--from CYCLE] [--to CYCLE] JOURNAL
    journal.py diff [--around N] JOURNAL OTHER

A line of the text has the cycle, the chip, what it does, the address and the value in hexadecimal, and
what stands at the address. `--from` and `--to` print the records from one cycle on and below another.

`diff` finds the first record at which the two journals are not the same, and prints it of both, behind
`<` and `>`, with N records before and behind it, 3 if not given. It ends with status 0 where both are the
same, with 1 where not. Status 2 comes where a file is no journal or cannot be read.
"""
import argparse
import os
import struct
import sys

RECORD = struct.Struct(">QBBIH")
PIECE = RECORD.size * 65_536
CHIPS = ["68000", "Z80", "VDP", "FM", "PSG"]
KINDS = [
    "reads byte",
    "reads word",
    "writes byte",
    "writes word",
    "takes interrupt",
    "transfers word",
    "reads byte",
    "writes byte",
    "hands RAM over",
    "takes RAM back",
    "begins line",
    "makes batch",
    "makes batch",
]
REGISTERS = {
    0x0: "version",
    0x2: "pad 1, data",
    0x4: "pad 2, data",
    0x6: "expansion port, data",
    0x8: "pad 1, control",
    0xA: "pad 2, control",
    0xC: "expansion port, control",
}


class NoJournal(Exception):
    """Why a file is no journal."""


def fm_place(address, kind):
    """The FM chip's port at an address."""
    if kind in (0, 1, 6):
        return "FM status"
    return f"FM {'data' if address & 1 else 'register'}, part {1 + (address >> 1 & 1)}"


def z80_place(address, kind):
    """What stands at an address of the Z80."""
    if address < 0x4000:
        return f"Z80's RAM {address & 0x1FFF:04x}"
    if address < 0x6000:
        return fm_place(address, kind)
    if address < 0x6100:
        return "Z80's bank"
    return "sound generator" if address == 0x7F11 else "nothing"


def vdp_place(address, kind):
    """The VDP's port at an address from C00000h on."""
    if address < 4:
        return "VDP data"
    if address < 8:
        return "VDP status" if kind < 2 else "VDP control"
    if address < 16:
        return "HV counter"
    return "sound generator" if address < 24 else "nothing"


def main_place(address, kind):
    """What stands at an address of the 68000 that chips share."""
    if 0xA00000 <= address < 0xA10000:
        return z80_place(address & 0xFFFF, kind)
    if 0xA10000 <= address < 0xA10020:
        return REGISTERS.get(address & 0x1E, "serial port")
    if 0xA11100 <= address < 0xA11102:
        return "Z80's bus request"
    if 0xA11200 <= address < 0xA11202:
        return "Z80's reset"
    if 0xC00000 <= address < 0xC00020:
        return vdp_place(address & 0x1F, kind)
    return "nothing"


def told(kind, address, value):
    """The address, the value and what is there, in words."""
    if kind == 4:
        return f"level {value}"
    if kind == 5:
        return f"{address:06x} {value:04x}  VDP memory"
    if kind in (8, 9):
        return "moved" if value else "not moved"
    if kind == 10:
        return f"{address}, interrupt level {value}"
    if kind in (11, 12):
        return f"{address}, {value} writes taken"
    wide = 4 if kind in (1, 3) else 2
    place = z80_place if kind in (6, 7) else main_place
    return f"{address:06x} {value:0{wide}x}".ljust(13) + place(address, kind)


def text_of(record):
    """One record as text."""
    cycle, chip, kind, address, value = record
    if chip >= len(CHIPS) or kind >= len(KINDS):
        raise NoJournal(f"chip {chip} and kind {kind} at cycle {cycle}")
    return f"{cycle:>12} {CHIPS[chip]:<5} {KINDS[kind]:<15} {told(kind, address, value)}"


def pieces(file):
    """The file's bytes, piece by piece; each piece but the last is PIECE long."""
    while piece := file.read(PIECE):
        yield piece


def records(name):
    """All records of a journal."""
    with open(name, "rb") as file:
        for piece in pieces(file):
            if len(piece) % RECORD.size:
                raise NoJournal(f"{name} ends within a record")
            yield from RECORD.iter_unpack(piece)


def show(name, first, last):
    """Prints the records from one cycle on and below another."""
    for record in records(name):
        if record[0] >= last:
            break
        if record[0] >= first:
            print(text_of(record))


def first_difference(one, other):
    """The number of the first record at which two files differ, or None."""
    number = 0
    with open(one, "rb") as left, open(other, "rb") as right:
        while True:
            a, b = left.read(PIECE), right.read(PIECE)
            if a != b:
                places = range(min(len(a), len(b)))
                place = next((k for k in places if a[k] != b[k]), len(places))
                return number + place // RECORD.size
            if not a:
                return None
            number += len(a) // RECORD.size


def some_records(name, first, count):
    """The records of a journal from a number on, at most so many."""
    with open(name, "rb") as file:
        file.seek(RECORD.size * first)
        data = file.read(RECORD.size * count)
    return list(RECORD.iter_unpack(data[: len(data) // RECORD.size * RECORD.size]))


def differ(one, other, around):
    """Prints the first difference of two journals; tells whether there is one."""
    number = first_difference(one, other)
    if number is None:
        print("the same")
        return False
    print(f"record {number} is the first that differs")
    before = max(0, number - around)
    for record in some_records(one, before, number - before):
        print(f"  {text_of(record)}")
    for mark, name in (("<", one), (">", other)):
        rest = some_records(name, number, 1 + around)
        for record in rest:
            print(f"{mark} {text_of(record)}")
        if not rest:
            print(f"{mark} the end of {name}")
    return True


def words_of(arguments):
    """The command line, read."""
    parser = argparse.ArgumentParser(description=__doc__, formatter_class=argparse.RawTextHelpFormatter)
    if arguments[:1] == ["diff"]:
        parser.add_argument("diff")
        parser.add_argument("--around", type=int, default=3, metavar="N")
        parser.add_argument("journal", metavar="JOURNAL")
        parser.add_argument("other", metavar="OTHER")
    else:
        parser.add_argument("--from", type=int, default=0, dest="first", metavar="CYCLE")
        parser.add_argument("--to", type=int, default=1 << 64, dest="last", metavar="CYCLE")
        parser.add_argument("journal", metavar="JOURNAL")
    return parser.parse_args(arguments)


def main():
    words = words_of(sys.argv[1:])
    try:
        if "other" in words:
            return 1 if differ(words.journal, words.other, words.around) else 0
        show(words.journal, words.first, words.last)
        sys.stdout.flush()
    except BrokenPipeError:
        os.dup2(os.open(os.devnull, os.O_WRONLY), sys.stdout.fileno())
    except (NoJournal, OSError) as fault:
        print(f"{sys.argv[0]}: {fault}", file=sys.stderr)
        return 2
    return 0


if __name__ == "__main__":
    sys.exit(main())
