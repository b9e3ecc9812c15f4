"""Where the fields of a saved state stand: docs/STATES.md."""
import faults

LENGTH = 393_620
# Of older versions: the mark and the length.
OLDER = {b"MDSTATE1": 378_240, b"MDSTATE2": 393_602}
MARK = b"MDSTATE3"
REGISTERS = "D0 D1 D2 D3 D4 D5 D6 D7 A0 A1 A2 A3 A4 A5 A6 USP SSP PC"
Z80_WORDS = "AF BC DE HL AF' BC' DE' HL' IX IY SP PC"
# What is kept of an operator, by channel and number.
KEPT = ["4 phase", "2 attenuation", "1 state", "1 key"]
OPERATORS = [
    f"{text[:2]}channel {channel} operator {number} {text[2:]}"
    for channel in range(1, 7)
    for number in range(1, 5)
    for text in KEPT
]
# Each line: a chip, and behind the colon its fields, each as `name` or `name*count` behind the width in bytes; `m`
# is a memory of so many bytes. The order is that of the file.
ROWS = f"""
file: 8 mark, m32 digest, 8 cycle, 1 region
68000: 8 next event, 1 stage, 8 start, 4 {REGISTERS.replace(" ", ", 4 ")}, 2 SR, 1 stopped, 1 halted, 1 trace
68000: 8 halted since, 1 cause, 1 number of answers, 2 answers*32, 4 transfer source, 4 transfer words
68000: 2 transfer cost, m65536 work RAM
Z80: 8 next event, 1 stage, 8 start, 2 {Z80_WORDS.replace(" ", ", 2 ")}, 1 I, 1 R, 1 IFF1, 1 IFF2, 1 mode, 1 halted
Z80: 1 after EI, 8 resets seen, 1 cause, 1 number of answers, 1 answers*4, 1 RAM is the bus's, m8192 RAM, 2 bank
VDP: 1 register*24, m65536 VRAM, 2 CRAM*64, 2 VSRAM*40, 1 control word waits, 1 code, 2 address, 1 fill armed
VDP: 1 going on, 1 byte, 2 source, 2 target, 4 bytes left, 8 next byte, 1 vertical waits, 1 horizontal waits
VDP: 1 overflow, 1 collision, 1 line counter, 8 Z80's interrupt from, 8 Z80's interrupt to, 1 240 lines
drawing: 8 next event, 1 overflow, 1 collision, m230400 picture
FM port: 1 part 1 latched, 1 part 2 latched, 1 register 24, 1 register 25, 1 register 26, 1 register 27
FM port: 1 timer A runs, 8 timer A overflows, 1 timer B runs, 8 timer B overflows, 1 flag A, 1 flag B
FM port: 2 writes held, m12288 writes
FM: 8 next batch, 1 part 1 register*256, 1 part 2 register*256, 1 latch*9, 1 oscillator, 1 oscillator's count
FM: 2 envelopes' counter, {", ".join(OPERATORS)}, 2 last outputs*12
PSG port: 8 next batch, 2 writes held, m10240 writes
PSG: 1 latch, 2 period 1, 2 period 2, 2 period 3, 1 noise, 1 volume 1, 1 volume 2, 1 volume 3, 1 noise volume
PSG: 2 counter*4, 1 bit*4, 2 shift register
board: 1 bus requested, 1 reset held, 8 resets, 1 pad 1 value, 1 pad 1 control, 1 pad 2 value, 1 pad 2 control
board: 2 pad 1 word, 2 pad 2 word, 1 pad 1 falls, 8 pad 1 last fall, 1 pad 2 falls, 8 pad 2 last fall
"""


def field_of(text):
    """The width, the name and the count of a field; a memory has the width 0."""
    width, _, name = text.strip().partition(" ")
    name, _, count = name.partition("*")
    if width.startswith("m"):
        return 0, name, int(width[1:])
    return int(width), name, int(count or 1)


def layout():
    """The fields in their order: chip and name, place, width and count."""
    at, fields = 0, {}
    for row in ROWS.strip().splitlines():
        chip, _, texts = row.partition(": ")
        for width, name, count in map(field_of, texts.split(", ")):
            fields[chip, name] = at, width, count
            at += max(width, 1) * count
    return fields


FIELDS = layout()
# How many values there are of fields that choose between words.
CHOICES = {("file", "region"): 2, ("68000", "stage"): 3, ("Z80", "stage"): 4, ("VDP", "going on"): 3}


def newer(data):
    """The bytes of now of a state of an older version, as the manual says what is made of it."""
    if data.startswith(b"MDSTATE1"):
        vdp, picture = 139_831, 354_881
        data = data[:48] + b"\0" + data[48:vdp] + b"\0" + data[vdp:picture] + bytes(16 * 960) + data[picture:]
    return MARK + data[8:] + bytes(LENGTH - len(data))


def read(name):
    """The version of a saved state, and its fields by chip and name."""
    with open(name, "rb") as file:
        data = file.read(LENGTH + 1)
    version = data[:8]
    if len(data) != OLDER.get(version, LENGTH) or version not in (*OLDER, MARK):
        raise faults.Wrong(f"{name} is no saved state")
    if version in OLDER:
        data = newer(data)
    fields = {field: value_of(data, *place) for field, place in FIELDS.items()}
    for field, most in CHOICES.items():
        if fields[field] >= most:
            raise faults.Wrong(f"{name} is no saved state: byte {FIELDS[field][0]} is {fields[field]}")
    return version, fields


def value_of(data, at, width, count):
    """A field's number, its list of numbers, or its bytes."""
    if width == 0:
        return data[at : at + count]
    numbers = [int.from_bytes(data[k : k + width], "big") for k in range(at, at + width * count, width)]
    return numbers if count > 1 else numbers[0]
